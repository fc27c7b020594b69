% Does a placement keep rules 101 to 106 with no late set? Tasks and processors are numbered from 1.
include "bin_packing_capa.mzn";
array[int] of int: room;
array[int] of int: limit;
array[int] of int: memory;
array[int] of int: load;
array[int] of set of int: residence;
int: capacity;
array[int] of int: sender;
array[int] of int: receiver;
array[int] of int: traffic;
array[int] of set of int: together;
array[int] of set of int: apart;
array[int] of set of int: late;

array[index_set(memory)] of var index_set(room): on;

constraint forall(t in index_set(memory))(on[t] in residence[t]);
constraint forall(g in together, t, u in g where t < u)(on[t] = on[u]);
constraint forall(g in apart, t, u in g where t < u)(on[t] != on[u]);
constraint bin_packing_capa(room, on, memory);
constraint bin_packing_capa(limit, on, load);
constraint sum(k in index_set(sender))(traffic[k] * bool2int(on[sender[k]] != on[receiver[k]])) <= capacity;
constraint forall(s in late)(exists(t in s where t > min(s))(on[t] != on[min(s)]));

solve :: int_search(on, dom_w_deg, indomain_min) satisfy;
