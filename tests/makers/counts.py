"""What was tried: passed, failed and skipped."""

passed = 0
failed = 0
skipped = 0


def expect(got, wanted, what):
    """One check; says what differs."""
    global passed, failed
    if got == wanted:
        print(f"ok: {what}")
        passed += 1
    else:
        print(f"FAILED: {what}\n  got    {shortened(got)}\n  wanted {shortened(wanted)}")
        failed += 1


def shortened(value):
    """A value as text, a long one by its beginning."""
    text = repr(value)
    return text if len(text) < 1000 else f"{text[:1000]}.. ({len(text)} characters)"


def skip(what):
    """One check that is not made."""
    global skipped
    print(f"skipped: {what}")
    skipped += 1


def begin():
    """Nothing was tried yet: a new process has its parent's counts."""
    global passed, failed, skipped
    passed = failed = skipped = 0


def add(others):
    """Adds what another process tried."""
    global passed, failed, skipped
    passed, failed, skipped = passed + others[0], failed + others[1], skipped + others[2]


def end():
    """The sums, as the gate wants them, and the exit status."""
    print(f"{skipped} skipped")
    print(f"{passed} passed, {failed} failed")
    return 0 if failed == 0 else 1
