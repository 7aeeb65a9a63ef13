"""Random programs of threads.

A program is a list of words: how many messages a queue can hold, and for each thread a word of its
operations, each a letter and the digit of its object. c/tests/explored/interpret.c runs them, and
simulated_programs.py simulates some of them:

  s S   a send of priority 0, of priority 1
  N T   a send that does not block, or has a deadline
  r     a receive
  n t   a receive that does not block, or has a deadline
  g     how many messages the queue holds
  l u   a lock of a mutex, and its unlock
  f F   a change of the description of the sends and receives: it does not block, or blocks
  x     the end of the program by a signal if the queue holds a message
  l u   a lock of a mutex, and its unlock
  y m   a try to lock a mutex, or a lock with a deadline, and the unlock if it succeeds
  R W U a lock of readers and writers for a reader, for a writer, and its unlock
  i j   a try to lock it for a reader, for a writer, and the unlock if it succeeds
  h v   the same with a deadline
  w p q a wait on a semaphore, a post, and a try to wait
  z     a wait on a semaphore with a deadline
  c k b a wait on a condition variable, a signal, and a broadcast
  C     a wait on a condition variable with a deadline
  o M   a post that is made once by all, and a barrier for two threads
  P D   a thread that posts, and a notice of a queue that does
  d Y   a sleep, and a yield
  e     the end of the program with a status
"""
# What a thread may do while it holds a mutex, but lock the other one.
HELD = ["s0", "r0", "s1", ""]
# What it may do while it holds a lock of readers and writers.
SHARED = ["s0", "g0", "n0", "s1", ""]


def random_word(dice, letters, most):
    """One to `most` operations. An L is a mutex that is held during another operation; an A or a B is
    a lock of readers and writers that a reader or a writer holds."""
    word = ""
    for _ in range(dice.randint(1, most)):
        letter, i = dice.choice(letters), dice.randint(0, 1)
        if letter == "L":
            word += f"l{i}" + dice.choice([*HELD, f"l{1 - i}u{1 - i}"]) + f"u{i}"
        elif letter in "AB":
            word += ("R" if letter == "A" else "W") + f"{i}{dice.choice(SHARED)}U{i}"
        else:
            word += f"{letter}{0 if letter in 'ckbC' else i}"
    return word


def random_program(dice, letters, most=(4, 3)):
    """A program of two or three threads with operations of these letters: each has at most
    `most[0]` if there are two threads, and `most[1]` if there are three."""
    threads = dice.choice([2, 2, 3])
    room = str(dice.choice([1, 2, 3]))
    return [room, *(random_word(dice, letters, most[threads - 2]) for _ in range(threads))]
