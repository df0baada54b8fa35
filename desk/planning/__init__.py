"""From keys and pins to a whole foil: names for ends, and a plan in which all tracks fit.

    grammar      a line that names ends: key, pin, pins, connect, keys from, pins from
    tables       keys and pins from a CSV
    reading      a whole text with such lines: the job's own lines, the keys, the pins, and what is to be connected
    ends         an end of a track: a point, or the points beside a key; ways and how near they are
    bench        a foil whose calls of the library are counted
    chance       the search's own generator
    layout       what lies on the bench now: ways, and guards
    search       ways for all nets, by orders, guards and rip-up; with polish, fewer bends and less ink
    given        what a text gives: its foil as the lines stand, what of it is kept, and what is to be planned
    writing      a plan as lines of a text
    reasons      what blocks a wish that is open
    trial        a job run whole on a new sheet by the library
    plans        all of it: a text in, a planned text and what is said of it out
    first        a text that has wishes is planned before a command goes on with it
    command      the command ./foil-plan

The library decides what is laid: every track of a plan is what a proved call has answered. What is here decides what is
tried next. Where that is wrong, a plan is poor; no track can lie where it must not."""
