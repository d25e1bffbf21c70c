# Which priority an owner of an inversion-safe mutex has under each rule of inheritance. What each line comes to was worked out by hand
# from the rules.

# The shell's task has the normal priority 200 and owns the mutex, for which t1, of priority 100, waits two ticks.
waits_for_the_shell() {
    rows --profile "$1" <<ROWS
m = semMCreate(13) => new symbol "m" added to symbol table. | 2
p = 0 => new symbol "p" added to symbol table. | 0
taskPrioritySet 0, 200 => 0
semTake m, -1 => 0
sp semTake, m, 2 => task spawned: id = 0x3, name = t1 | 3
taskPriorityGet 0, &p => 0
p => 100
taskDelay 3 => 0
taskPriorityGet 0, &p => 0
p => $2
ROWS
}

shows 'under rule 1 an owner keeps a raised priority after the wait has ended'
ticks 'every 1000 5\n'
waits_for_the_shell 1 100

shows 'under rule 2 it loses it at once'
ticks 'every 1000 5\n'
waits_for_the_shell 2 200
