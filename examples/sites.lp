% Two sites became numbers when the registers were joined, and one has a name that only stands in quotes.
drawn(w4001, north). drawn(w4002, 7). drawn(w4003, "St. Mary's").
moved(w4001, north, 12). moved(w4002, 7, "St. Mary's"). moved(w4003, "St. Mary's", north).
given(w4001, 12, p1). given(w4002, "St. Mary's", p2). given(w4003, north, p6).
implicated(w4001). implicated(w4002). implicated(w4003).

held(Unit, Site) :- drawn(Unit, Site).
held(Unit, To) :- held(Unit, From), moved(Unit, From, To).
received(Patient, Site) :- given(Unit, Site, Patient), held(Unit, Site), implicated(Unit).

% North rings its own patients. Every other site is asked to, be it a number, a name or a string.
ring(Patient) :- received(Patient, north).
ask(Site, Patient) :- received(Patient, Site), Site != north.

% The sites are asked in one order: numbers by size, then names, then strings.
asked(Site) :- ask(Site, Patient).
later(Site) :- asked(Site), asked(Other), Other < Site.
first(Site) :- asked(Site), not later(Site).
