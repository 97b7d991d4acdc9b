# Commands for GDB on a run (view/alewife-gdb). `help user-defined` lists them.
set print thread-events off
set filename-display basename
# How long an answer may take, in seconds: a run of many events is read first.
set remotetimeout 3600

define stamp
  if $argc == 0
    monitor stamp
  else
    monitor stamp $arg0
    with logging enabled off -- maintenance flush register-cache
    frame
  end
end
document stamp
Where the run is, or with a number: goes to that stamp.
end

define cycle
  if $argc == 0
    monitor cycle
  else
    monitor cycle $arg0
    with logging enabled off -- maintenance flush register-cache
    frame
  end
end
document cycle
Of a session with --moments: the cycles of the events around, or with a number: goes before the first event that starts there or later.
end

define why
  if $argc == 0
    eval "monitor why %d", $_thread - 1
  else
    monitor why $arg0
  end
end
document why
The last miss of this thread, or of the context of a number, and its cause.
end

define line
  if $argc == 0
    monitor line
  else
    monitor line $arg0
  end
end
document line
A line, by its number, an address in it, or a variable's name: its entry, its copies, its messages, and who waits for it.
end

define messages
  monitor messages
end
document messages
All messages on their way, and those that wait for a trap handler.
end
