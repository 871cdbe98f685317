% The slip of w5002 is torn: no record says whether north or south issued the unit.
issued(w5001, north). torn(w5002).
given(w5001, p1). given(w5002, p2).
implicated(w5001). implicated(w5002).

% One of the two sites issued a unit whose slip is torn.
issued(Unit, north) | issued(Unit, south) :- torn(Unit).

% The site that issued a unit rings those who received it, and a patient is told whichever site it was.
ring(Site, Patient) :- issued(Unit, Site), given(Unit, Patient), implicated(Unit).
notify(Patient) :- ring(Site, Patient).
