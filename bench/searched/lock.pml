/* The lock of lock2 and its two clients, by hand: each client takes it, and gives it back once. */
mtype = { take, give };
chan box = [4] of { mtype, byte };
chan told[3] = [2] of { bit };

active proctype lock() {
    mtype what;
    byte who, waits;
end_free:
    box ? what, who;
    told[who] ! 1;
end_taken:
    box ? what, who;
    if
    :: what == take -> waits = who; goto end_taken
    :: else -> told[who] ! 1
    fi;
    if
    :: waits -> told[waits] ! 1; waits = 0; goto end_taken
    :: else -> goto end_free
    fi
}

proctype client(byte me) {
    box ! take, me;
    told[me] ? 1;
    box ! give, me;
    told[me] ? 1
}

init {
    atomic { run client(1); run client(2) }
}
