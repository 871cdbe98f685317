% Units of blood across several sites: who received a unit that is to be looked back on?
drawn(w1042, north). drawn(w1043, north). drawn(w1044, east).
moved(w1042, north, depot). moved(w1042, depot, south). moved(w1042, south, west).
moved(w1043, north, depot). moved(w1043, depot, west).
moved(w1044, east, west).
given(w1042, south, p3). given(w1042, west, p7). given(w1043, west, p9). given(w1044, west, p4).
implicated(w1042).

held(Unit, Site) :- drawn(Unit, Site).
held(Unit, To) :- held(Unit, From), moved(Unit, From, To).

% A transfusion counts where a chain of records leads to it.
received(Patient, Unit) :- given(Unit, Site, Patient), held(Unit, Site).
notify(Patient) :- received(Patient, Unit), implicated(Unit).
