"""A bank that loses a deposit, and one that keeps each: docs/pytest.md shows how a seed finds the difference."""


def deposit(io):
    """Adds one to the account, and returns the new balance."""
    account = io.open('/account', 'r+', create=True)
    balance = int(io.pread(account, 20, 0) or b'0') + 1
    io.pwrite(account, str(balance).encode(), 0)
    return balance


def lock(io):
    """Makes the file `/lock`, once nobody else has it."""
    while True:
        try:
            return io.close(io.open('/lock', create=True, exclusive=True))
        except FileExistsError:
            io.work(10)


def locked_deposit(io):
    """Deposits while no other thread does."""
    lock(io)
    balance = deposit(io)
    io.unlink('/lock')
    return balance


def test_no_deposit_is_lost(detio_run):
    assert max(detio_run(deposit, deposit).values) == 2


def test_no_locked_deposit_is_lost(detio_run):
    assert max(detio_run(locked_deposit, locked_deposit).values) == 2
