%% An object: a process that runs the code of its class. It makes a line for each transition. It gives its lines to the keeper of its host
%% when it comes to rest, or earlier if they are many.
%%
%% A line depends on the earlier lines of its object and on its causes, which are lines of other objects.
-module(pool_object).
-export([init/3]).
-export_type([name/0, cause/0, item/0]).
-include("pool.hrl").
-define(QUANTUM, 10000).     % a loop or a call ends a line of so many local transitions
-define(KEPT, 100).          % an object keeps at most so many lines
-define(AHEAD, 100000).      % objects wait if so many lines of their host have not reached the merge

-type name() :: {object, pid(), Text :: binary()}.
%% A line, by its object and its number; the lines of each object are counted from 1.
-type cause() :: {Object :: binary(), Number :: non_neg_integer()}.
%% An object gives away its lines in their order. A line that has causes comes after the list of them.
-type item() :: binary() | [cause()].
-type value() :: integer() | boolean() | nil | name().
%% Objects send each other calls and messages, and the values that they wait for. A request names the caller that its frame will serve.
-type request() :: {serves(), cause(), Method :: binary(), [value()]}.
-type serves() :: {caller, name()} | nobody.

-record(object, {name :: name(), text :: binary(),
                 node :: binary(),                 % the first part of its name
                 methods :: #{binary() => pool_unit:method()},
                 counters :: atomics:atomics_ref(), keeper :: pid(),
                 inbox = [] :: [request()],        % requests that it has not taken, the earliest first
                 late = [] :: [request()],         % requests that came after these, the latest first
                 number = 0, given = 0,            % the number of its lines, and of those that it has given away
                 items = [] :: [item()],           % the others, the latest first
                 causes = [] :: [cause()],         % the causes of its next line
                 random = none :: none | rand:state(),  % what its free choices are drawn from
                 sent = 0, received = 0}).         % messages that it has not yet added to the counters

%% The process of an object: of the root, or of an object that a maker creates, with the causes of its `new`. It ends after the run.
-spec init(binary(), binary(), root | {by, name(), [cause()]}) -> no_return().
init(Class, Text, By) ->
    #run{classes = #{Class := {class, Variables, Methods, Code}}, counters = Counters, keeper = Keeper, seed = Seed} = persistent_term:get(?RUN),
    Node = node_of(Text),
    Name = {object, self(), Text},
    O = #object{name = Name, text = Text, node = Node, methods = Methods, counters = Counters, keeper = Keeper, random = random(Seed, Text)},
    go(1, [], Code, {}, body, erlang:make_tuple(Variables, nil), 0, created(By, Class, O)).

%% The line of a creation is the first line of the new object.
created(root, _, O) -> O;
created({by, {object, _, By} = Maker, Causes}, Class, #object{name = Name, text = Text, node = Node} = O) ->
    Event = case node_of(By) of
        Node -> <<"turn ", Node/binary>>;
        From -> <<"link ", From/binary, $\s, Node/binary>>
    end,
    O1 = line(iolist_to_binary([Event, " new ", By, $\s, Text, $\s, Class]), O#object{causes = Causes}),
    post(Maker, {value, cause(O1), Name}, flush(O1)).

%% ---- The code. Ops are the operands, the last first. Frame has the caller that the frame serves, and the frame below it. K counts the
%% local transitions without a line.
go(Pc, Ops, Code, Locals, Frame, Vars, K, O) ->
    case element(Pc, Code) of
        {push, V} -> go(Pc + 1, [V | Ops], Code, Locals, Frame, Vars, K, O);
        {jump, A} -> go(A, Ops, Code, Locals, Frame, Vars, K, O);
        {load_variable, I} -> go(Pc + 1, [element(I, Vars) | Ops], Code, Locals, Frame, Vars, K + 1, O);
        {load_local, I} -> go(Pc + 1, [element(I, Locals) | Ops], Code, Locals, Frame, Vars, K + 1, O);
        self -> go(Pc + 1, [O#object.name | Ops], Code, Locals, Frame, Vars, K + 1, O);
        {store_variable, I} -> [V | Rest] = Ops, go(Pc + 1, Rest, Code, Locals, Frame, setelement(I, Vars, V), K + 1, O);
        {store_local, I} -> [V | Rest] = Ops, go(Pc + 1, Rest, Code, setelement(I, Locals, V), Frame, Vars, K + 1, O);
        {binary, Op} ->
            [B, A | Rest] = Ops,
            case binary(Op, A, B) of
                {fault, E} -> fault(E, locals(K, O));
                V -> go(Pc + 1, [V | Rest], Code, Locals, Frame, Vars, K + 1, O)
            end;
        {unary, Op} ->
            [A | Rest] = Ops,
            case unary(Op, A) of
                {fault, E} -> fault(E, locals(K, O));
                V -> go(Pc + 1, [V | Rest], Code, Locals, Frame, Vars, K + 1, O)
            end;
        pop -> go(Pc + 1, tl(Ops), Code, Locals, Frame, Vars, K + 1, O);
        {branch, A} ->
            case Ops of
                [true | Rest] -> go(Pc + 1, Rest, Code, Locals, Frame, Vars, K + 1, O);
                [false | Rest] -> go(A, Rest, Code, Locals, Frame, Vars, K + 1, O);
                [nil | _] -> fault('NilOperand', locals(K, O))
            end;
        loop when K >= ?QUANTUM -> go(Pc, Ops, Code, Locals, Frame, Vars, 0, flush(locals(K, O)));
        loop -> go(Pc + 1, Ops, Code, Locals, Frame, Vars, K + 1, O);
        {call, _} when K >= ?QUANTUM -> go(Pc, Ops, Code, Locals, Frame, Vars, 0, flush(locals(K, O)));
        {call, M} ->
            {method, _, N, MethodCode} = Method = method(M, O),
            {Args, Rest} = split(N, Ops),
            go(1, [], MethodCode, locals_of(Method, Args), {own, {Pc + 1, Rest, Code, Locals, Frame}}, Vars, K + 1, O);
        ret ->
            {Serves, {Pc1, Ops1, Code1, Locals1, Frame1}} = Frame,
            case Serves of
                own -> go(Pc1, [hd(Ops) | Ops1], Code1, Locals1, Frame1, Vars, K + 1, O);
                nobody -> go(Pc1, Ops1, Code1, Locals1, Frame1, Vars, K + 1, O);
                {caller, Caller} -> go(Pc1, Ops1, Code1, Locals1, Frame1, Vars, 0, return(Caller, hd(Ops), locals(K, O)))
            end;
        post ->
            case Frame of
                {{caller, Caller}, Below} -> go(Pc + 1, Ops, Code, Locals, {nobody, Below}, Vars, 0, return(Caller, hd(Ops), locals(K, O)));
                _ -> go(Pc + 1, Ops, Code, Locals, Frame, Vars, K, O)
            end;
        {new, Class} ->
            {Name, O1} = create(Class, locals(K, O)),
            go(Pc + 1, [Name | Ops], Code, Locals, Frame, Vars, 0, O1);
        {send, M, N} ->
            case split(N, Ops) of
                {_, [nil | _]} -> fault('NilDestination', locals(K, O));
                {Args, [To | Rest]} ->
                    {V, O1} = call(To, M, Args, locals(K, O)),
                    go(Pc + 1, [V | Rest], Code, Locals, Frame, Vars, 0, O1)
            end;
        {async, M, N} ->
            case split(N, Ops) of
                {_, [nil | _]} -> fault('NilDestination', locals(K, O));
                {Args, [To | Rest]} -> go(Pc + 1, Rest, Code, Locals, Frame, Vars, 0, send(To, M, Args, locals(K, O)))
            end;
        write -> [V | Rest] = Ops, go(Pc + 1, Rest, Code, Locals, Frame, Vars, 0, say(<<"write ">>, <<$\s, (text(V))/binary>>, locals(K, O)));
        {write_text, Text} -> go(Pc + 1, Ops, Code, Locals, Frame, Vars, 0, say(<<"write ">>, <<" \"", Text/binary, $">>, locals(K, O)));
        {answer, Names} -> serve([{1, Names, Pc + 1}], Ops, Code, Locals, Frame, Vars, locals(K, O));
        {select, Alternatives} ->
            {Guards, Rest} = split(length(Alternatives), Ops),
            case {lists:member(nil, Guards), open(1, Alternatives, Guards)} of
                {true, _} -> fault('NilOperand', locals(K, O));
                {false, []} -> fault('NoOpenGuard', locals(K, O));
                {false, Open} -> serve(Open, Rest, Code, Locals, Frame, Vars, locals(K, O))
            end;
        halt -> over(locals(K, O))
    end.

open(_, [], []) -> [];
open(I, [{Names, A} | Alternatives], [true | Guards]) -> [{I, Names, A} | open(I + 1, Alternatives, Guards)];
open(I, [_ | Alternatives], [_ | Guards]) -> open(I + 1, Alternatives, Guards).

fault(E, O) -> over(say(<<"fault ">>, <<$\s, (atom_to_binary(E))/binary>>, O)).

%% Nothing is left to do. The object counts the messages that still come.
over(O) -> {_, O1} = next(O), over(O1#object{inbox = [], late = []}).

%% ---- Answers. The first alternative is taken that is possible: a plain one, or one for which a request has come.
serve(Open, Ops, Code, Locals, Frame, Vars, #object{random = Random} = O) when Random =/= none -> serve_any(Open, Ops, Code, Locals, Frame, Vars, arrived(O));
serve(Open, Ops, Code, Locals, Frame, Vars, #object{inbox = Inbox, late = Late} = O) ->
    case possible(Open, Inbox) of
        {pick, I, A} -> go(A, Ops, Code, Locals, Frame, Vars, 0, say(<<"pick ">>, <<$\s, (integer_to_binary(I))/binary>>, O));
        {take, Request, A, Rest} -> enter(Request, {A, Ops, Code, Locals, Frame}, Vars, O#object{inbox = Rest});
        none when Late =/= [] -> serve(Open, Ops, Code, Locals, Frame, Vars, O#object{inbox = Inbox ++ lists:reverse(Late), late = []});
        none -> wait(Open, Ops, Code, Locals, Frame, Vars, O)
    end.

%% None of the requests that have come is possible: the object waits for one that is.
wait(Open, Ops, Code, Locals, Frame, Vars, O) ->
    {Request, O1} = next(O),
    case possible(Open, [Request]) of
        {take, _, A, []} -> enter(Request, {A, Ops, Code, Locals, Frame}, Vars, O1);
        none -> wait(Open, Ops, Code, Locals, Frame, Vars, keep(Request, O1))
    end.

keep(Request, #object{late = Late} = O) -> O#object{late = [Request | Late]}.

possible([], _) -> none;
possible([{I, plain, A} | _], _) -> {pick, I, A};
possible([{_, Names, A} | Open], Inbox) ->
    case first(Names, Inbox, []) of
        none -> possible(Open, Inbox);
        {Request, Rest} -> {take, Request, A, Rest}
    end.

%% The earliest request on one of the methods. So no request of an object overtakes another one of it.
first(_, [], _) -> none;
first(Names, [Request | Inbox], Before) ->
    case lists:member(element(3, Request), Names) of
        true -> {Request, lists:reverse(Before, Inbox)};
        false -> first(Names, Inbox, [Request | Before])
    end.

%% With a seed, an alternative is drawn of those that are possible, and then a sender of those whose request it accepts.
serve_any(Open, Ops, Code, Locals, Frame, Vars, #object{inbox = Inbox, random = Random} = O) ->
    case choices(Open, Inbox, []) of
        [] ->
            {Request, O1} = next(O),
            serve_any(Open, Ops, Code, Locals, Frame, Vars, arrived(keep(Request, O1)));
        All ->
            {Choices, Random1} = one_of(All, Random),
            {Choice, Random2} = one_of(Choices, Random1),
            O1 = O#object{random = Random2},
            case Choice of
                {pick, I, A} -> go(A, Ops, Code, Locals, Frame, Vars, 0, say(<<"pick ">>, <<$\s, (integer_to_binary(I))/binary>>, O1));
                {take, Request, A} -> enter(Request, {A, Ops, Code, Locals, Frame}, Vars, O1#object{inbox = lists:delete(Request, Inbox)})
            end
    end.

%% All requests that have come, the earliest first.
arrived(#object{inbox = Inbox, late = Late, received = Received} = O) ->
    receive
        stop -> stop(O);
        Request -> arrived(keep(Request, O#object{received = Received + 1}))
    after 0 -> O#object{late = [], inbox = Inbox ++ lists:reverse(Late)}
    end.

%% What each open alternative that is possible can do. Of each sender it accepts the earliest request on its methods, unless an earlier alternative, whose
%% methods are those of Before, names this method, too.
choices([], _, _) -> [];
choices([{I, plain, A} | Open], Inbox, Before) -> [[{pick, I, A}] | choices(Open, Inbox, Before)];
choices([{_, Names, A} | Open], Inbox, Before) ->
    Taken = [{take, Request, A} || {_, _, M, _} = Request <- earliest(Names, Inbox, #{}), not lists:member(M, Before)],
    case Taken of [] -> []; _ -> [Taken] end ++ choices(Open, Inbox, Names ++ Before).

%% The earliest request of each sender on one of the methods.
earliest(_, [], _) -> [];
earliest(Names, [{_, {From, _}, M, _} = Request | Inbox], Seen) ->
    case lists:member(M, Names) andalso not is_map_key(From, Seen) of
        true -> [Request | earliest(Names, Inbox, Seen#{From => true})];
        false -> earliest(Names, Inbox, Seen)
    end.

%% The draws of an object come from the seed and the object's name.
random(none, _) -> none;
random(Seed, Text) -> rand:seed_s(exsss, {Seed, erlang:phash2(Text), 1}).

one_of([It], Random) -> {It, Random};
one_of(All, Random) ->
    {Place, Random1} = rand:uniform_s(length(All), Random),
    {lists:nth(Place, All), Random1}.

enter({Serves, {From, _} = Cause, M, Args}, Below, Vars, #object{causes = Causes} = O) ->
    {method, _, _, Code} = Method = method(M, O),
    Word = case Serves of nobody -> <<"take ">>; _ -> <<"answer ">> end,
    O1 = say(Word, <<$\s, From/binary, $\s, M/binary, (texts(Args))/binary>>, O#object{causes = [Cause | Causes]}),
    go(1, [], Code, locals_of(Method, Args), {Serves, Below}, Vars, 0, O1).

%% ---- Messages.
call({object, _, Text} = To, M, Args, O) ->
    O1 = say(<<"post call ">>, <<$\s, Text/binary, $\s, M/binary, (texts(Args))/binary>>, O),
    await(post(To, {{caller, O1#object.name}, cause(O1), M, Args}, O1)).

send({object, _, Text} = To, M, Args, O) ->
    O1 = say(<<"send ">>, <<$\s, Text/binary, $\s, M/binary, (texts(Args))/binary>>, O),
    post(To, {nobody, cause(O1), M, Args}, O1).

return({object, _, Text} = To, V, O) ->
    O1 = say(<<"return ">>, <<$\s, Text/binary, $\s, (text(V))/binary>>, O),
    post(To, {value, cause(O1), V}, O1).

%% The keeper has the object made. `new` is a line of the new object, so the causes are handed on.
create(Class, #object{causes = Causes, sent = Sent} = O) ->
    pool_node:create(O#object.keeper, Class, O#object.name, [cause(O) | Causes]),
    await(O#object{causes = [], sent = Sent + 1}).

%% The value of a call, or the new object. The object keeps requests that come meanwhile.
await(O) ->
    case next(O) of
        {{value, Cause, V}, #object{causes = Causes} = O1} -> {V, O1#object{causes = [Cause | Causes]}};
        {Request, O1} -> await(keep(Request, O1))
    end.

post({object, Pid, _}, Message, #object{sent = Sent} = O) ->
    Pid ! Message,
    O#object{sent = Sent + 1}.

%% The next message. Without one the object comes to rest: it adds its counts before that, and becomes active before it counts the message.
next(#object{received = Received} = O) ->
    receive
        stop -> stop(O);
        Message -> {Message, O#object{received = Received + 1}}
    after 0 ->
        #object{counters = Counters, sent = Sent} = O1 = flush(O),
        atomics:add(Counters, ?SENT, Sent),
        atomics:add(Counters, ?RECEIVED, Received),
        atomics:sub(Counters, ?ACTIVE, 1),
        receive
            stop -> stop(O1);
            Message ->
                atomics:add(Counters, ?ACTIVE, 1),
                {Message, O1#object{sent = 0, received = 1}}
        end
    end.

%% The run is over. An object at rest is told so. One that gives lines away looks at the counter.
-spec stop(#object{}) -> no_return().
stop(O) ->
    flush(O),
    exit(normal).

%% ---- Lines.
locals(0, O) -> O;
locals(K, O) -> say(<<"local ">>, <<$\s, (integer_to_binary(K))/binary>>, O).

%% (A binary that begins with a literal is made at once. One that begins with another binary is made for appending, and costs three times more.)
say(Word, Rest, #object{node = Node, text = Me} = O) -> line(<<"turn ", Node/binary, $\s, Word/binary, Me/binary, Rest/binary>>, O).

line(Line, #object{number = Number, given = Given, items = Items, causes = Causes} = O) ->
    Behind = case Causes of [] -> Items; _ -> [Causes | Items] end,
    O1 = O#object{number = Number + 1, items = [Line | Behind], causes = []},
    case Number - Given >= ?KEPT of true -> flush(O1); false -> O1 end.

cause(#object{text = Me, number = Number}) -> {Me, Number}.

%% Gives the lines away.
flush(#object{items = []} = O) -> O;
flush(#object{text = Me, number = Number, given = Given, items = Items, keeper = Keeper, counters = Counters} = O) ->
    pool_node:lines(Keeper, Number - Given, {Me, Given + 1, lists:reverse(Items)}),
    wait(Counters, atomics:add_get(Counters, ?LINES, Number - Given)),
    O#object{given = Number, items = []}.

%% An object waits for the merge if that is far behind.
wait(Counters, Lines) ->
    case {atomics:get(Counters, ?STOP), Lines - atomics:get(Counters, ?TAKEN)} of
        {1, _} -> exit(normal);
        {0, Ahead} when Ahead > ?AHEAD -> timer:sleep(10), wait(Counters, Lines);
        {0, _} -> ok
    end.

%% ---- Frames and values.
method(M, #object{methods = Methods}) -> map_get(M, Methods).

%% The last N operands in the order of the text, and the others.
split(N, Ops) -> split(N, Ops, []).
split(0, Ops, Args) -> {Args, Ops};
split(N, [V | Ops], Args) -> split(N - 1, Ops, [V | Args]).

%% The parameters have the arguments, and the other locals are nil.
locals_of({method, Locals, Parameters, _}, Args) -> list_to_tuple(Args ++ lists:duplicate(Locals - Parameters, nil)).

binary('==', A, B) -> A =:= B;
binary('!=', A, B) -> A =/= B;
binary(_, nil, _) -> {fault, 'NilOperand'};
binary(_, _, nil) -> {fault, 'NilOperand'};
binary('+', A, B) -> integer(A + B);
binary('-', A, B) -> integer(A - B);
binary('*', A, B) -> integer(A * B);
binary(Op, _, 0) when Op =:= '/'; Op =:= '%' -> {fault, 'ZeroDivisor'};
binary('/', A, B) -> integer(A div B);
binary('%', A, B) -> A rem B;
binary('<', A, B) -> A < B;
binary('<=', A, B) -> A =< B;
binary('>', A, B) -> A > B;
binary('>=', A, B) -> A >= B;
binary('and', A, B) -> A and B;
binary('or', A, B) -> A or B.

unary(_, nil) -> {fault, 'NilOperand'};
unary('-', A) -> integer(-A);
unary('not', A) -> not A.

integer(Z) when Z >= -16#8000000000000000, Z =< 16#7FFFFFFFFFFFFFFF -> Z;
integer(_) -> {fault, 'Overflow'}.

text({object, _, Text}) -> Text;
text(Z) when is_integer(Z) -> integer_to_binary(Z);
text(Atom) -> atom_to_binary(Atom).

texts([]) -> <<>>;
texts([V | Args]) -> <<$\s, (text(V))/binary, (texts(Args))/binary>>.

%% The node in a name `node.slot`.
node_of(Text) -> hd(binary:split(Text, <<".">>)).
