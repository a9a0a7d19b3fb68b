"""What was looked at, a line each, and what of it was wrong."""
import concurrent.futures

# the longest that a program may take
SECONDS = 60

wrong = []


def say(held, what, bad=()):
    """Says whether something held, and with it the first three of what was wrong."""
    print(("ok    " if held else "WRONG ") + what + "".join(f"\n        {it}" for it in bad[:3]), flush=True)
    if not held:
        wrong.append(what)


def look_side_by_side(looks):
    """Says what is found by these calls, which wait for most of their time: each is a function with its arguments, and
    gives what `say` takes, again and again. One that cannot be done is wrong."""
    with concurrent.futures.ThreadPoolExecutor(len(looks)) as pool:
        ran = [(look, pool.submit(lambda it, *words: list(it(*words)), look, *words)) for look, *words in looks]
        for look, it in ran:
            try:
                for held, what, *bad in it.result():
                    say(held, what, *([] if held else bad))
            except OSError as error:
                say(False, f"{look.__doc__}: {error}")
