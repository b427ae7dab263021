# Has OpenSTA print the slack at each register of the module TOP. Its files are named by LEAST and
# GREATEST (Liberty), NETLIST (Verilog), CONSTRAINTS (SDC) and DELAYS (SDF, if there is one). Setup
# is checked with the greatest delays, and hold with the least; recovery and removal of resets and
# gates in the clock aren't.
set sta_recovery_removal_checks_enabled 0
set sta_gated_clock_checks_enabled 0
read_liberty -min $env(LEAST)
read_liberty -max $env(GREATEST)
read_verilog $env(NETLIST)
link_design $env(TOP)
set_operating_conditions -analysis_type bc_wc
read_sdc $env(CONSTRAINTS)
if { $env(DELAYS) != "" } {
    read_sdf -analysis_type bc_wc $env(DELAYS)
}
puts "setup"
report_checks -path_delay max -format end -group_count 1000000 -digits 6
puts "hold"
report_checks -path_delay min -format end -group_count 1000000 -digits 6
