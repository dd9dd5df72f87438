%% The keeper of a host: makes the objects of this host, sends their lines to the merge, and ends them.
-module(pool_node).
-behaviour(gen_server).
-export([start/1, keepers/2, root/1, create/4, lines/3, sample/0, finish/1]).
-export([init/1, handle_call/3, handle_cast/2, handle_info/2]).
-include("pool.hrl").
-define(OBJECTS, 65536).     % objects of a node of the placement: a record has no other names
-define(WORDS, 8000000).     % words of memory of an object
-define(BLOCK, 1000).        % so many lines are sent to the merge at once,
-define(DELAY, 2).           % or fewer after so many milliseconds

-record(node, {counters :: atomics:atomics_ref(),
               unit :: pool_unit:unit(), placement :: pool_unit:placement(),
               engine :: pid(), merge :: pid(),
               log :: none | file:io_device(),
               keepers = {} :: tuple(),          % node K of the placement stands on host K rem the number of hosts
               slots = #{}, spread = #{},        % by node; by node and class
               objects = #{} :: #{pid() => binary()},
               blocks = [], count = 0,           % blocks for the merge, the latest first, and the number of their lines
               finishing = false}).

%% Starts the keeper of this host for one run.
-spec start(#{unit := pool_unit:unit(), placement := pool_unit:placement(), engine := pid(), merge := pid(), seed := none | pos_integer(), log := none | file:name_all()}) -> {ok, pid()}.
start(Options) -> gen_server:start(?MODULE, Options, []).

%% Tells a keeper the keepers of all hosts.
-spec keepers(pid(), [pid()]) -> ok.
keepers(Keeper, Keepers) -> gen_server:call(Keeper, {keepers, list_to_tuple(Keepers)}).

%% Makes the root object, on its host.
-spec root(pid()) -> ok.
root(Keeper) -> gen_server:call(Keeper, root).

%% Makes an object where the placement has it, for a maker of this keeper's host. The new object tells the maker its name.
-spec create(pid(), binary(), pool_object:name(), [pool_object:cause()]) -> ok.
create(Keeper, Class, Maker, Causes) -> gen_server:cast(Keeper, {create, Class, Maker, Causes}).

%% Takes a block of so many lines.
-spec lines(pid(), pos_integer(), pool_merge:block()) -> ok.
lines(Keeper, Count, Block) -> Keeper ! {lines, Count, Block}, ok.

%% The messages that objects of this host received, the active objects, and the messages sent, read in this order.
-spec sample() -> {Received :: integer(), Active :: integer(), Sent :: integer()}.
sample() ->
    #run{counters = Counters} = persistent_term:get(?RUN),
    Received = atomics:get(Counters, ?RECEIVED),
    Active = atomics:get(Counters, ?ACTIVE),
    {Received, Active, atomics:get(Counters, ?SENT)}.

%% Ends the objects of a keeper, and then the keeper, after all their lines were sent.
-spec finish(pid()) -> ok.
finish(Keeper) -> gen_server:cast(Keeper, finish).

init(#{unit := {_, Classes} = Unit, placement := Placement, engine := Engine, merge := Merge, seed := Seed, log := Log}) ->
    Counters = atomics:new(?STOP, [{signed, true}]),
    persistent_term:put(?RUN, #run{classes = Classes, counters = Counters, keeper = self(), seed = Seed}),
    Device = case Log of none -> none; _ -> {ok, File} = file:open(Log, [raw, write]), File end,
    {ok, #node{counters = Counters, unit = Unit, placement = Placement, engine = Engine, merge = Merge, log = Device}}.

handle_call({keepers, Keepers}, _, S) -> {reply, ok, S#node{keepers = Keepers}};
handle_call(root, _, #node{unit = {Root, _}, placement = {_, Places}} = S) ->
    Node = case Places of #{Root := {at, K}} -> K; _ -> 0 end,
    gen_server:cast(host(Node, S), {start, Root, Node, root}),
    {reply, ok, S}.

handle_cast({create, Class, {object, _, Text} = Maker, Causes}, S) ->
    {Node, S1} = place(Class, node_of(Text), S),
    gen_server:cast(host(Node, S), {start, Class, Node, {by, Maker, Causes}}),
    {noreply, S1};
handle_cast({start, _, _, _}, #node{finishing = true} = S) -> {noreply, S};
handle_cast({start, Class, Node, By}, #node{counters = Counters, slots = Slots, objects = Objects} = S) ->
    case maps:get(Node, Slots, 0) of
        ?OBJECTS ->
            over(io_lib:format("node ~w has ~w objects", [Node, ?OBJECTS]), S),
            {noreply, S};
        Slot ->
            Text = iolist_to_binary([integer_to_binary(Node), $., integer_to_binary(Slot)]),
            atomics:add(Counters, ?ACTIVE, 1),
            Limit = {max_heap_size, #{size => ?WORDS, kill => true, error_logger => false}},
            {Pid, _} = spawn_opt(pool_object, init, [Class, Text, By], [monitor, Limit]),
            By =:= root orelse atomics:add(Counters, ?RECEIVED, 1),     % the request; its object is active already
            {noreply, S#node{slots = Slots#{Node => Slot + 1}, objects = Objects#{Pid => Text}}}
    end;
handle_cast(finish, #node{counters = Counters, objects = Objects} = S) ->
    atomics:put(Counters, ?STOP, 1),
    [Pid ! stop || Pid <- maps:keys(Objects)],
    finished(S#node{finishing = true}).

handle_info({lines, Lines, Block}, #node{blocks = Blocks, count = Count} = S) ->
    Blocks =/= [] orelse erlang:send_after(?DELAY, self(), send),
    S1 = S#node{blocks = [Block | Blocks], count = Count + Lines},
    {noreply, case Count + Lines >= ?BLOCK of true -> sent(S1); false -> S1 end};
handle_info(send, S) -> {noreply, sent(S)};
handle_info({taken, Count}, #node{counters = Counters} = S) ->
    atomics:add(Counters, ?TAKEN, Count),
    {noreply, S};
handle_info({'DOWN', _, process, Pid, _}, #node{finishing = true, objects = Objects} = S) ->
    finished(S#node{objects = maps:remove(Pid, Objects)});
handle_info({'DOWN', _, process, Pid, Why}, #node{objects = Objects} = S) ->
    {Text, Others} = maps:take(Pid, Objects),
    over(case Why of killed -> io_lib:format("~s has no memory left", [Text]); _ -> io_lib:format("~s failed: ~0p", [Text, Why]) end, S),
    {noreply, S#node{objects = Others}}.

%% An object that is down has given its lines.
finished(#node{objects = Objects} = S) when map_size(Objects) > 0 -> {noreply, S};
finished(S) -> {stop, normal, sent(S)}.

over(Why, #node{engine = Engine}) -> Engine ! {over, iolist_to_binary(Why)}.

%% Lines are written to the log of this host before they are sent.
sent(#node{blocks = []} = S) -> S;
sent(#node{blocks = Blocks, count = Count, merge = Merge, log = Log} = S) ->
    InOrder = lists:reverse(Blocks),
    Log =:= none orelse (ok = file:write(Log, [pool_merge:text(Block) || Block <- InOrder])),
    Merge ! {lines, self(), Count, InOrder},
    S#node{blocks = [], count = 0}.

%% The node of a new object of the class, whose maker is on Node.
place(Class, Node, #node{placement = {Nodes, Places}, spread = Spread} = S) ->
    case maps:get(Class, Places, same) of
        same -> {Node, S};
        {at, K} -> {K, S};
        spread ->
            Made = maps:get({Node, Class}, Spread, 0),
            {(Node + Made) rem Nodes, S#node{spread = Spread#{{Node, Class} => Made + 1}}}
    end.

host(Node, #node{keepers = Keepers}) -> element(Node rem tuple_size(Keepers) + 1, Keepers).

node_of(Text) -> binary_to_integer(hd(binary:split(Text, <<".">>))).
