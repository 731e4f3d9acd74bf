    set unit [format %d 0x[lindex $entry @@{at_unit}]]
    if {$more && $unit != $whose} {
      puts stdout "unit $whose more"
      set more 0
    }
    set whose $unit
