%% The engine: starts hosts, which are Erlang nodes, runs programs on them, and detects the end of a run.
-module(pool_engine).
-export([main/1, run/2]).
-export_type([options/0, outcome/0]).

%% The files of a run, and its ends. The record is written to `record`. With a folder `logs`, host K writes a log `log.K` there, and the engine
%% a file `end`. The run is over after `lines` lines or `time` milliseconds. For trials, the last host is killed after `kill` milliseconds.
%% With a number `seed`, free choices are drawn; without it, the first open alternative and the earliest request are taken.
-type options() :: #{unit := file:name_all(), placement := none | file:name_all(), record := file:name_all(), logs := none | file:name_all(),
                     lines := pos_integer() | infinity, time := non_neg_integer() | infinity, kill := none | non_neg_integer(),
                     seed := none | pos_integer()}.

%% For the scripts: runs the jobs of a file, one after the other, on a number of hosts. A job is a line of seven or eight words between tabs: unit,
%% placement, record, logs, lines, time, kill, seed; `-` stands for none. For each job it writes the six parts of an outcome between tabs.
-spec main([string()]) -> no_return().
main([Count, File]) ->
    {ok, Bytes} = file:read_file(File),
    jobs([binary:split(Line, <<"\t">>, [global]) || Line <- binary:split(Bytes, <<"\n">>, [global, trim])], hosts(list_to_integer(Count))),
    halt(0).

jobs([], _) -> ok;
jobs([[Unit, Placement, Record, Logs, Lines, Time, Kill | Seed] | Jobs], Hosts) ->
    Options = #{unit => Unit, placement => word(Placement), record => Record, logs => word(Logs),
                lines => number(Lines, infinity), time => number(Time, infinity), kill => number(Kill, none),
                seed => case Seed of [] -> none; [Word] -> number(Word, none) end},
    %% (in a process of its own, so that no message of an earlier run reaches it)
    {End, Made, Left, Clock, Used, Why} = erpc:receive_response(erpc:send_request(node(), ?MODULE, run, [Hosts, Options])),
    io:format("~s\t~w\t~w\t~w\t~w\t~s~n", [End, Made, Left, Clock, Used, Why]),
    jobs(Jobs, [case net_adm:ping(Host) of pong -> Host; pang -> hd(hosts(1)) end || Host <- Hosts]).

word(<<"-">>) -> none;
word(Word) -> Word.
number(<<"-">>, None) -> None;
number(Word, _) -> binary_to_integer(Word).

%% Starts a number of hosts: processes of this machine, which listen on the loopback alone and end with this one.
hosts(Count) ->
    Starting = [erpc:send_request(node(), fun host/0) || _ <- lists:seq(1, Count)],
    [erpc:receive_response(Request) || Request <- Starting].

host() ->
    Args = ["-pa", filename:dirname(code:which(?MODULE)), "+P", "1048576", "+sbwt", "none", "+sbwtdcpu", "none", "+sbwtdio", "none",
            "-kernel", "logger_level", "none", "-kernel", "inet_dist_use_interface", "{127,0,0,1}", "-env", "ERL_CRASH_DUMP_SECONDS", "0"],
    {ok, _, Host} = peer:start(#{name => peer:random_name("pool"), host => "127.0.0.1", longnames => true, wait_boot => 120000, args => Args}),
    Host.

%% The outcome of a run: how its record ends, its lines, the lines left out, milliseconds of the clock and of the hosts' processors, and the
%% reason of the end. `closed` means that the reader of the record has stopped.
-type outcome() :: {quiet | schedule | closed, non_neg_integer(), non_neg_integer(), integer(), integer(), Why :: iodata()}.

%% Runs a program.
-spec run([node()], options()) -> outcome().
run(Hosts, #{unit := UnitFile, placement := PlacementFile, record := Record, logs := Logs, lines := Most, time := Time, kill := Kill, seed := Seed}) ->
    Unit = pool_unit:read(UnitFile),
    Placement = case PlacementFile of none -> everywhere(length(Hosts), Unit); _ -> pool_unit:placement(PlacementFile) end,
    Merge = pool_merge:start(Record, Most, self()),
    Options = #{unit => Unit, placement => Placement, engine => self(), merge => Merge, seed => Seed},
    Keepers = [keeper(Host, Options#{log => log(Logs, ["log.", integer_to_list(I)])}) || {I, Host} <- lists:zip(lists:seq(0, length(Hosts) - 1), Hosts)],
    pool_merge:keepers(Merge, Keepers),
    [ok = pool_node:keepers(Keeper, Keepers) || Keeper <- Keepers],
    [monitor(process, Process) || Process <- [Merge | Keepers]],
    Start = erlang:monotonic_time(millisecond),
    Used = used(Hosts),
    Time =:= infinity orelse erlang:send_after(Time, self(), {over, <<"the time is over">>}),
    Kill =:= none orelse kill(lists:last(Hosts), Kill),
    ok = pool_node:root(hd(Keepers)),
    {End, Why} = watch(Hosts, none, 1),
    Clock = erlang:monotonic_time(millisecond) - Start,
    Logs =:= none orelse (ok = file:write_file(log(Logs, "end"), ["end ", atom_to_binary(End), $\n])),
    [pool_node:finish(Keeper) || Keeper <- Keepers],
    pool_merge:finish(Merge, End),
    Again = monitor(process, Merge),    % (it may be down already)
    receive
        {merged, Word, Lines, Left} -> {Word, Lines, Left, Clock, used(Hosts) - Used, Why};
        {'DOWN', Again, process, _, Reason} when Reason =/= normal -> {closed, 0, 0, Clock, used(Hosts) - Used, Why}
    end.

used(Hosts) -> lists:sum([Used || {ok, {Used, _}} <- erpc:multicall(Hosts, erlang, statistics, [runtime])]).

keeper(Host, Options) ->
    {ok, Keeper} = erpc:call(Host, pool_node, start, [Options]),
    Keeper.

log(none, _) -> none;
log(Logs, Name) -> filename:join(filename:absname(Logs), Name).

%% Without a placement each host is a node, and every class is spread.
everywhere(Count, {_, Classes}) -> {Count, maps:map(fun(_, _) -> spread end, Classes)}.

kill(Host, After) ->
    Process = erpc:call(Host, os, getpid, []),
    spawn(fun() -> timer:sleep(After), os:cmd("kill -9 " ++ Process) end).

%% The run is quiet if two waves in a row find no active object, and as many messages are sent at the second as were received at the first.
%% (These are the four counters of Mattern.) The run is over earlier if a limit is reached or a host is lost.
watch(Hosts, Before, Wait) ->
    receive
        {over, Why} -> {schedule, Why};
        {'DOWN', _, process, _, closed} -> {schedule, <<"the reader of the record has stopped">>};
        {'DOWN', _, process, _, _} -> {schedule, <<"a host was lost">>}
    after Wait ->
        case lists:unzip3([Sample || {ok, Sample} <- erpc:multicall(Hosts, pool_node, sample, [])]) of
            {Received, Active, Sent} when length(Active) =:= length(Hosts) ->
                case {lists:sum(Active), lists:sum(Sent)} of
                    {0, Before} -> {quiet, <<>>};
                    {0, _} -> watch(Hosts, lists:sum(Received), 0);
                    _ -> watch(Hosts, none, min(2 * Wait + 1, 20))
                end;
            _ -> watch(Hosts, none, 20)
        end
    end.
