# Runs the self-test of @@{name} by OpenOCD, and prints its log as `vidlakost bitmap`, `diagnosis` and `locate --line` read it.
# A player of @@{name}.svf ends the test also where it found something, and the log with it: so `start` stays at 1 here.
#   openocd -f @@{name}.cfg -c "source @@{name}_log.tcl" -c run_and_read -c shutdown
proc run_and_read {} {
  irscan bist.tap 0x8
@@{open}  drscan bist.tap @@{stopped}
  runtest 16
  drscan bist.tap @@{started}
  set polls 0
  while 1 {
    runtest 1000
    set state [drscan bist.tap @@{started}]
    if {[format %d 0x[lindex $state 1]] != 0} { break }
    incr polls
    if {$polls > @@{polls}} { error "done did not come" }
  }
  puts stdout "fail [format %d 0x[lindex $state 2]]"
  read_log
}
proc read_log {} {
  @@{to_log}
  set more 0
@@{whose}  for {set scan 0} {$scan < @@{most}} {incr scan} {
    set entry [drscan bist.tap @@{fields}]
@@{turn}    if {[format %d 0x[lindex $entry @@{at_valid}]] != 0} {
      puts stdout "@@{unit}cycle [format %d 0x[lindex $entry @@{at_cycle}]] expected [lindex $entry @@{at_expected}] returned [lindex $entry @@{at_returned}]"
    }
    if {[format %d 0x[lindex $entry @@{at_more}]] != 0} { set more 1 }
    if {[format %d 0x[lindex $entry @@{at_last}]] != 0} { break }
  }
  if {$more} { puts stdout "@@{of_last}more" }
  @@{to_end}
}
