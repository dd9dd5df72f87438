%% Merges lines by their causes. A line is passed on after the line before it of its object and its causes. So the merge goes on during the
%% run, and it needs no clock.
-module(pool_merge).
-export([start/3, keepers/2, finish/2, text/1, main/1]).
-export_type([block/0]).

%% Lines of an object in a row, and the number of the first one.
-type block() :: {Object :: binary(), Number :: pos_integer(), [pool_object:item()]}.

-record(merge, {given = #{} :: #{binary() => non_neg_integer()},    % the last line of each object that was passed on
                waits = ets:new(waits, [ordered_set]) :: ets:tid(), % blocks, each by the line that it waits for
                out = [] :: iodata(), number = 0,                   % lines passed on, and the number of the last one
                most :: pos_integer() | infinity}).                 % no line with a larger number is passed on

%% Adds a block. Its first line depends on the line before it of its object.
add(_, #merge{number = Most, most = Most} = M) -> M;
add({Object, Number, Items}, M) -> behind({Object, Number - 1}, Object, Number, Items, M).

%% Continues with a block if the line on which it depends was passed on. Otherwise the block waits.
behind({Cause, At}, Object, Number, Items, #merge{given = Given, waits = Waits} = M) ->
    case Given of
        #{Cause := Last} when Last >= At -> give(Object, Number, Items, M);
        #{} when At =:= 0 -> give(Object, Number, Items, M);
        #{} -> ets:insert(Waits, {{Cause, At, Object, Number}, Items}), M
    end.

give(Object, Number, [], M) -> given(Object, Number - 1, M);
give(Object, Number, [[] | Items], M) -> give(Object, Number, Items, M);
give(Object, Number, [[Cause | Causes] | Items], M) -> behind(Cause, Object, Number, [Causes | Items], given(Object, Number - 1, M));
give(_, _, _, #merge{number = Most, most = Most} = M) -> M;
give(Object, Number, [Line | Items], #merge{out = Out, number = N} = M) ->
    give(Object, Number + 1, Items, M#merge{out = [Out, numbered(N + 1), $\s, Line, $\n], number = N + 1}).

%% A record has numbers below 2^32; after the last of them comes 0.
numbered(Number) -> integer_to_binary(Number band 16#FFFFFFFF).

given(Object, Last, #merge{given = Given} = M) ->
    case Given of
        #{Object := Last} -> M;
        #{} -> woken(Object, Last, M#merge{given = Given#{Object => Last}})
    end.

%% Continues with the blocks that wait for a line of the object, up to this one.
woken(Object, Last, #merge{waits = Waits} = M) ->
    case ets:next(Waits, {Object, 0, none, 0}) of
        {Object, At, Waiting, Number} = Key when At =< Last ->
            [{_, Items}] = ets:take(Waits, Key),
            woken(Object, Last, give(Waiting, Number, Items, M));
        _ -> M
    end.

%% How the record ends, the lines left out, and the end line. It ends quiet only if the engine says so and no line is left out.
ending(End, #merge{waits = Waits, number = Number, most = Most}) ->
    {Word, Left} = case ets:foldl(fun({_, Items}, Sum) -> Sum + length([Line || Line <- Items, is_binary(Line)]) end, 0, Waits) of
        _ when Number =:= Most -> {schedule, 0};
        0 -> {End, 0};
        Lines -> {schedule, Lines}
    end,
    {Word, Left, ["end ", atom_to_binary(Word), $\s, numbered(Number), $\n]}.

%% ---- During a run.

%% Starts the merge of a run. It writes the record to a file, and tells the engine when that has the most lines allowed. It ends with `closed`
%% if the file takes no more.
-spec start(file:name_all(), pos_integer() | infinity, pid()) -> pid().
start(File, Most, Engine) ->
    spawn(fun() ->
        {ok, Device} = file:open(File, [raw, append]),
        loop(Device, Engine, none, [], [], #merge{most = Most})
    end).

%% Tells the merge the keepers that send lines.
-spec keepers(pid(), [pid()]) -> ok.
keepers(Merge, Keepers) -> Merge ! {keepers, Keepers}, ok.

%% Ends the record after all keepers have ended. The merge then sends the engine {merged, End, Lines, LeftOut}. A line is left out if a line on
%% which it depends never came.
-spec finish(pid(), quiet | schedule) -> ok.
finish(Merge, End) -> Merge ! {finish, End}, ok.

%% Takes all blocks that have come, and then writes the lines passed on. Taken has the keepers whose lines were taken since it last wrote.
loop(Device, Engine, End, Keepers, Taken, #merge{out = Out, number = Number, most = Most} = M) ->
    receive
        {lines, Keeper, Count, Blocks} -> loop(Device, Engine, End, Keepers, [{Keeper, Count} | Taken], lists:foldl(fun add/2, M, Blocks));
        {'DOWN', _, process, Keeper, _} -> loop(Device, Engine, End, lists:delete(Keeper, Keepers), Taken, M);
        {keepers, Pids} -> [monitor(process, Pid) || Pid <- Pids], loop(Device, Engine, End, Pids, Taken, M);
        {finish, Word} -> loop(Device, Engine, Word, Keepers, Taken, M)
    after case Taken of [] when Keepers =/= []; End =:= none -> infinity; _ -> 0 end ->
        write(Device, Out),
        [Keeper ! {taken, Count} || {Keeper, Count} <- Taken],
        Number =:= Most andalso (Engine ! {over, <<"the record has as many lines as allowed">>}),
        case Keepers of
            [] when End =/= none ->
                {Word, Left, Last} = ending(End, M),
                write(Device, Last),
                ok = file:close(Device),
                Engine ! {merged, Word, Number, Left};
            _ -> loop(Device, Engine, End, Keepers, [], M#merge{out = []})
        end
    end.

write(Device, Text) ->
    case file:write(Device, Text) of
        ok -> ok;
        {error, _} -> exit(closed)
    end.

%% ---- Logs as text.

%% The lines of a log. Each has its number, its object, its causes and the line.
-spec text(block()) -> iodata().
text({Object, Number, Items}) -> text(Object, Number, [], Items).

text(_, _, _, []) -> [];
text(Object, Number, _, [Causes | Items]) when is_list(Causes) -> text(Object, Number, Causes, Items);
text(Object, Number, Causes, [Line | Items]) ->
    [[integer_to_binary(Number), $\s, Object, $\s, causes(Causes), $\s, Line, $\n] | text(Object, Number + 1, [], Items)].

causes([]) -> $-;
causes(Causes) -> lists:join($,, [[Object, $@, integer_to_binary(Number)] || {Object, Number} <- Causes]).

%% For the script: merges the logs of these names as their lines come. With a number instead of `none`, their lines come in an order that is
%% drawn from it. A log may have a line `end quiet`. The status is 3 if lines were left out, and 2 if a line is not one of a log.
-spec main([string()]) -> no_return().
main([Seed | Logs]) ->
    {ok, Device} = file:open("/dev/fd/3", [raw, append]),
    Start = {schedule, #merge{most = infinity}},
    {End, M} = case Seed of
        "none" -> lists:foldl(fun(Log, State) -> each(Log, fun(Lines, S) -> written(Device, lists:foldl(fun line/2, S, Lines)) end, State) end, Start, Logs);
        _ ->
            Lines = lists:foldl(fun(Log, All) -> each(Log, fun(Some, S) -> Some ++ S end, All) end, [], Logs),
            rand:seed(exsss, list_to_integer(Seed)),
            {_, Drawn} = lists:unzip(lists:sort([{rand:uniform(), Line} || Line <- Lines])),
            written(Device, lists:foldl(fun line/2, Start, Drawn))
    end,
    {_, Left, Last} = ending(End, M),
    write(Device, Last),
    Left =:= 0 orelse io:format(standard_error, "engine/merge: ~w lines are left out, since a line that they depend on is missing~n", [Left]),
    halt(case Left of 0 -> 0; _ -> 3 end).

%% Calls a function on the lines of a file, as many as come at a time. A last line without a line feed was cut off, and is dropped.
each(File, Do, State) ->
    {ok, Device} = file:open(File, [raw, read, binary]),
    each(Device, <<>>, Do, State).

each(Device, Front, Do, State) ->
    case file:read(Device, 65536) of
        {ok, Bytes} ->
            [Last | Lines] = lists:reverse(binary:split(<<Front/binary, Bytes/binary>>, <<"\n">>, [global])),
            each(Device, Last, Do, Do(lists:reverse(Lines), State));
        eof -> ok = file:close(Device), State
    end.

line(<<"end quiet">>, {_, M}) -> {quiet, M};
line(<<"end schedule">>, {_, M}) -> {schedule, M};
line(Line, {End, M}) ->
    try
        [Number, Object, Behind, Event] = words(3, Line),
        Causes = [cause(binary:split(Cause, <<"@">>)) || Cause <- binary:split(Behind, <<",">>, [global]), Cause =/= <<"-">>],
        {End, add({Object, binary_to_integer(Number), [Causes, Event]}, M)}
    catch error:_ ->
        io:format(standard_error, "engine/merge: this is no line of a log: ~s~n", [Line]),
        halt(2)
    end.

words(0, Line) -> [Line];
words(N, Line) -> [Word, Rest] = binary:split(Line, <<" ">>), [Word | words(N - 1, Rest)].

cause([Object, Number]) -> {Object, binary_to_integer(Number)}.

written(Device, {End, #merge{out = Out} = M}) -> write(Device, Out), {End, M#merge{out = []}}.
