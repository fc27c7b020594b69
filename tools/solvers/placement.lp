% Does a placement keep rules 101 to 106 with no late set? The facts of a table add a constraint for each minimal late set.
{ on(T,P) : may(T,P) } = 1 :- task(T,_,_).
:- together(G,T), together(G,U), T != U, on(T,P), not on(U,P).
:- apart(G,T), apart(G,U), T < U, on(T,P), on(U,P).
:- processor(P,M,_), #sum { W,T : on(T,P), task(T,W,_) } > M.
:- processor(P,_,L), #sum { W,T : on(T,P), task(T,_,W) } > L.
outside(K) :- message(K,S,R,_), on(S,P), not on(R,P).
:- capacity(C), #sum { A,K : outside(K), message(K,_,_,A) } > C.
#show on/2.
#defined message/4.
#defined together/2.
#defined apart/2.
