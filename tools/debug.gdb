# For gdb-multiarch: `source` this, then `dsmon p.toml in.txt 1000`, or `bare handler.s 300`. docs/debug.md has a session step by step.
set architecture mips:3000
# Processes of a run are gdb's processes, and all of them go.
set schedule-multiple on
define dsmon
  if $argc == 3
    target remote | dsmon debug $arg0 $arg1 $arg2
  else
    echo usage: dsmon POLICY INPUT N\n
  end
  # gdb 13 takes stops of the first process for quiet ones, until it was resumed once as the current one.
  stepi
  reverse-stepi
end
document dsmon
dsmon POLICY INPUT N: begins a session over that run, at time 0.
end
define bare
  if $argc == 2
    target remote | dsmon debug --bare $arg0 $arg1
  else
    echo usage: bare SOURCE N\n
  end
  stepi
  reverse-stepi
end
document bare
bare SOURCE N: begins a session over that run on the bare machine, before its first instruction.
end
define at
  monitor stop $arg0
  continue
end
document at
at T: goes on to the time T. After `monitor stop T`, `reverse-continue` goes back to it.
end
