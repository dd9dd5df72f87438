%% The state of a run on a host. It is one persistent term, so no object copies it.
-record(run, {classes :: #{binary() => pool_unit:class()},
              counters :: atomics:atomics_ref(),
              keeper :: pid(),
              seed :: none | pos_integer()}).           % of the free choices, if they are drawn
-define(RUN, pool_run).
%% The counters of a host: its active objects; messages that its objects sent and received, which an object adds when it comes to rest;
%% lines that objects gave to the keeper, and those of them that the merge has taken; 1 after the run is over.
-define(ACTIVE, 1).
-define(SENT, 2).
-define(RECEIVED, 3).
-define(LINES, 4).
-define(TAKEN, 5).
-define(STOP, 6).
