# Of a list of ASes, one a line: a line for each that has it drop what is invalid, and a report first and after every ten.
BEGIN { print "report 1 10.0.128.1" }
{ print "policy " $1 " drop-invalid" }
NR % 10 == 0 { print "report 1 10.0.128.1" }
