"""Wrong explorers and chips: faults that a reader would fear, each of which a test has to refuse (tools/test/check_every)."""
import typing


class Fault(typing.NamedTuple):
    """A text of a file in every/, and what stands there in the wrong one."""
    name: str
    file: str
    old: str
    new: str


WRONG = [
    # Footprints.
    Fault("a transfer that doesn't say what it changed", "chip/host.c", "    changed_object(object, &was);\n", ""),
    Fault("a picture of flags that doesn't say what it looked at", "chip/host.c",
          "    E->event->reads[row_of_flag(flag)] |= which;\n", ""),
    Fault("an event of a round that is no change of the controller", "chip/round.c",
          "    changed_controller(&before);\n    tell(\"round: the event", "    tell(\"round: the event"),
    Fault("a mask of the interrupt that is no dependency", "threads.c",
          "    step(&of);\n    add_footprint(E->event, &of);\n    R.masked[cpu] = masked;", "    R.masked[cpu] = masked;"),
    Fault("a step of a task that may be made beside its handler's", "steps.c",
          "    if (me->cpu)\n        E->event->reads[ROW_TOKENS] |= 1ull << (TOKEN_CPU + me->cpu);\n", ""),
    Fault("a write of shared memory that counts for nothing", "shared.c",
          "                E->event->writes[ROW_MEMORY] |= 1ull << (of->number & 63);", "                continue;"),
    # Places.
    Fault("a step that others disturb and that is no place", "steps.c",
          "        if (other != R.me && conflict(most, &E->reach[other]))\n            return false;\n", ""),
    Fault("a search that goes on with less than it has just learned", "search.c", "        if (E->grew) {", "        if (0) {"),
    Fault("a store of a frame in one step with the look before it", "chip/round.c",
          "    step_at_object(object, true);\n    ccan_record *record = &C.records[object - 1], before = *record;\n    if (!accepts",
          "    ccan_record *record = &C.records[object - 1], before = *record;\n    if (!accepts"),
    Fault("an access to shared memory that is no step", "shared.c", "        step_when(&most, may, at);", "        (void)most;"),
    Fault("an end of a run at which a thread that never stepped is left behind", "steps.c",
          "if (E->replaying ? !replay_passes() : is_place)", "if (E->replaying && !replay_passes())"),
    Fault("an interrupt that is not known to look at its line before it first runs", "threads.c",
          "    learn((int)(of - R.threads), &line);\n", ""),
    # Numbers of schedules.
    Fault("a number of schedules by one way to each state", "counts.c",
          "*ways = add_saturating(*ways, from->ways);", "*ways = *ways ? *ways : from->ways;"),
    Fault("a number of schedules over states whose turns have gone otherwise", "search.c", "    turns_key(key);\n", ""),
    Fault("a number of schedules that begins anew behind the largest", "counts.c",
          "return a + b < a ? UINT64_MAX : a + b;", "return a + b;"),
    Fault("a number of schedules in a cycle that is told as exact", "counts.c",
          "        G->has_cycle = true;\n", "        (void)0;\n"),
    # Pictures.
    Fault("a bar that ends a row too late", "picture.c",
          "int end = i < of->count ? of->tops[i] + MARK : of->tops[i];", "int end = of->tops[i < of->count ? i + 1 : i];"),
    Fault("flags of a row that are those before its step", "rows.c",
          "        chip_flags(W->rows[W->settled].flags);", "        chip_flags(W->rows[W->settled ? W->settled - 1 : 0].flags);"),
    Fault("a box in the lane of another thread", "picture.c", "(area){ in->x, y + 2,", "(area){ of->lanes[0].x, y + 2,"),
    Fault("a text with marks of XML as it stands", "svg.c", "    case '<': fputs(\"&lt;\", to); break;\n", ""),
    # Loops that wait.
    Fault("a poll ended too soon: what it looked at has changed in its turn", "turns.c",
          "    of->is_idle = is_vain && of->is_fresh;", "    of->is_idle = is_vain;"),
    Fault("a poll that nobody wakes", "turns.c", "            of->is_idle = !conflict(&of->looked, event);", "            of->is_idle = true;"),
    Fault("a turn that keeps something for itself, taken for one that counts", "turns.c",
          "only_counts(number, now, of->base);", "true;"),
    Fault("a turn that changed something, taken for one in vain", "turns.c",
          "is_vain = is_same_wait && changed_nothing(of) && !E->replaying", "is_vain = is_same_wait && !E->replaying"),
    # States.
    Fault("states that are one whatever was printed", "checkpoint.c", "    hash_bytes(key, E->text, R.printed);\n", ""),
    Fault("states that are one whoever is idle", "checkpoint.c", "(uint64_t)of->is_idle << 2 |", ""),
    Fault("a checkpoint without the memory of malloc", "checkpoint.c", "        if (R.used[number])\n            into", "        if (0)\n            into"),
    Fault("sleep sets that nobody leaves", "search.c", "        if (conflict(label, &before->event))\n            continue;\n", ""),
    Fault("a known state from which nothing is done, whoever was asleep", "search.c", "*asleep_before & at->may", "0u"),
    # Threads.
    Fault("a mutex that two may hold", "sync.c", "{ return !awaited(of)->first; }", "{ return of != NULL; }"),
    Fault("a lock for readers beside a writer", "locks.c", "{ return !(awaited(of)->first & WRITER); }", "{ return of != NULL; }"),
    Fault("a spin lock that two may hold", "locks.c", "{ return !*(const uint32_t *)of->about; }", "{ return of != NULL; }"),
    Fault("a barrier that lets go one too few", "locks.c", "(of->second) == of->first", "(of->second) + 1 == of->first"),
    Fault("a wait whose time is never up", "sync.c", "bool in_time = step_choosing(2) == 0;", "bool in_time = step_choosing(1) == 0;"),
    Fault("blocks of memory that another way has freed", "checkpoint.c", "    clear_unused(used);\n", "    (void)used, (void)clear_unused;\n"),
    Fault("thread-local variables as another thread left them", "steps.c", "    put_thread_locals(of);\n", ""),
    Fault("a state that has forgotten the time that was up", "checkpoint.c",
          "    hash_two(key, (uint64_t)of->woke.tv_sec, (uint64_t)of->woke.tv_nsec);\n", ""),
    Fault("a clock that has not come to the time that was up", "private.c", "? woke : stands_at;", "? stands_at : stands_at;"),
    Fault("a handler beside a task of its own processor", "steps.c",
          "    if (of->cpu && R.handler_on[of->cpu] && R.handler_on[of->cpu] != number + 1)\n        return false;\n", ""),
    # The chip.
    Fault("a loaded frame that outlives Init", "chip/round.c", "    if (C.controller.has_left)\n        drop_loaded();\n", ""),
    Fault("an overrun without MsgLst", "chip/frames.c", "        now.control |= MSGLST;", "        now.control |= 0;"),
    Fault("a bus off that leaves Init", "chip/round.c", "        of->control |= INIT;\n", ""),
    Fault("a reset that leaves TxRqst", "chip/controller.c", "~(NEWDAT | INTPND | TXRQST)", "~(NEWDAT | INTPND)"),
    Fault("a request of a D_CAN that leaves NewDat", "chip/host.c", "number, TXRQST | NEWDAT);", "number, TXRQST);"),
    Fault("a power down in spite of a request", "chip/round.c",
          "    if (flags_now(CCAN_TXRQST, all_objects()))\n        return false;\n", ""),
    Fault("a power down by PDR as it was", "chip/round.c", "    if (C.controller.pdr)\n        set_control", "        set_control"),
    Fault("a write of the lower half of Control that clears PDR", "chip/registers.c",
          "    if (name == CONTROL)\n        set_control(value);", "    if (name == CONTROL)\n        of->pdr = false, set_control(value);"),
    Fault("a write of PDR that is no change of the controller", "chip/chip.c",
          "    parts |= before->pdr != now->pdr ? PART_POWER : 0;\n", ""),
    Fault("a software reset that leaves the error counters", "chip/registers.c",
          "    reset_controller();\n    changed", "    set_control(INIT);\n    changed"),
    Fault("a software reset that leaves the objects", "chip/registers.c", "        reset_record(&C.records[object - 1]);\n", ""),
]
