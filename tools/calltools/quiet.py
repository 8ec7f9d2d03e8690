"""Until a tool runs, an interrupt ends it without a word: its modules take a while to come. A tool's first import."""

# What `signal` is made of: that one brings more modules.
import _signal

# Where the caller has it ignored, it stays so; and no thread but the first may set it.
try:
    if _signal.getsignal(_signal.SIGINT) is _signal.default_int_handler:
        _signal.signal(_signal.SIGINT, _signal.SIG_DFL)
except ValueError:
    pass
