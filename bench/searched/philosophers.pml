/* The philosophers of the lesson as they are mended, by hand: both take the forks in one order. */
mtype = { take, give };
chan fork[2] = [4] of { mtype, byte };
chan told[3] = [4] of { bit };

proctype keeper(byte it) {
    mtype what;
    byte who, waits;
end_free:
    fork[it] ? what, who;
    told[who] ! 1;
end_taken:
    fork[it] ? what, who;
    if
    :: what == take -> waits = who; goto end_taken
    :: else -> told[who] ! 1
    fi;
    if
    :: waits -> told[waits] ! 1; waits = 0; goto end_taken
    :: else -> goto end_free
    fi
}

proctype philosopher(byte me) {
    fork[0] ! take, me;
    told[me] ? 1;
    fork[1] ! take, me;
    told[me] ? 1;
    fork[1] ! give, me;
    fork[0] ! give, me
}

init {
    atomic { run keeper(0); run keeper(1); run philosopher(1); run philosopher(2) }
}
