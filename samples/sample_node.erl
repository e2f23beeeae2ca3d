%% A node that leaves a crash dump with terms of all kinds, links, monitors, message queues and a table. It left the two dumps
%% that lie beside it, under OTP 25:
%%
%%   erlc sample_node.erl
%%   ERL_CRASH_DUMP=whole.dump erl -noshell -mode minimal -s sample_node main
%%   ERL_CRASH_DUMP=cut.dump ERL_CRASH_DUMP_BYTES=480000 erl -noshell -mode minimal -s sample_node main
-module(sample_node).
-export([main/0]).

main() ->
    table(),
    Holder = start(fun holder/0),
    Reader = start(fun() -> link(Holder) end),
    Queue = start(fun() -> ok end),
    start(fun() -> watcher(Holder, Reader) end),
    [Queue ! {message, N, <<N:64>>} || N <- lists:seq(1, 12)],
    Reader ! {keep, large()},
    ready(Reader),
    erlang:halt("a sample of a crash dump").

table() ->
    ets:new(sample_table, [named_table, public, ordered_set]),
    ets:insert(sample_table, [{N, integer_to_list(N)} || N <- lists:seq(1, 20)]).

%% Starts a process and waits until it holds what it is to hold.
start(Hold) ->
    Parent = self(),
    Pid = spawn(fun() ->
        Hold(),
        Parent ! {ready, self()},
        wait(Parent)
    end),
    ready(Pid),
    Pid.

ready(Pid) ->
    receive {ready, Pid} -> ok end.

%% Keeps a part of each binary that comes. All other messages stay in the queue.
wait(Parent) ->
    receive
        {keep, Binary} ->
            put(part, binary:part(Binary, 10, 20)),
            Parent ! {ready, self()},
            wait(Parent)
    end.

%% A binary that lies outside of the heaps.
large() ->
    list_to_binary(lists:duplicate(100, "binary")).

holder() ->
    register(holder, self()),
    put(list, [one, 2, 3.5, "text" | improper]),
    put(numbers, {-1, 1 bsl 70, -(1 bsl 90), 0.1, 1.0e300}),
    put(small_map, #{name => <<"heap binary">>, {key} => [value]}),
    put(large_map, maps:from_list([{N, N * N} || N <- lists:seq(1, 100)])),
    put(large, large()),
    put(bits, <<5:3>>),
    put(reference, make_ref()),
    put(function, fun(X) -> {X, large} end),
    put(atoms, ['with space', 'ä', '', nil]).

watcher(Holder, Reader) ->
    monitor(process, Holder),
    monitor(process, Reader),
    monitor(process, holder),
    link(Reader).
