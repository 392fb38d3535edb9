# Whether lines were meant as input of a program, and came to the dialog: ten or more are no commands, and none is one.
# The status is 0 where that is so. awk -f no_commands.awk <LINES

{ gsub(/[ \t\r]+/, " "); sub(/^ /, ""); sub(/ $/, "") }

$0 == "" { next }

/^(right|wrong|unknown|back|refer)( [0-9]+)?$/ { found = 1; exit }
/^shared (right|wrong|unknown)( [0-9]+)?$/ { found = 1; exit }
/^(show|trace|alike|shared back) [0-9]+$/ { found = 1; exit }
/^(trust|save|reference) [^ ]+$/ { found = 1; exit }
/^(same|tree|quit)$/ { found = 1; exit }
/^(note|slice|state) [0-9]+ / { found = 1; exit }
/^carry [0-9]+ [0-9]+$/ { found = 1; exit }

{ strange++ }

END { exit found || strange < 10 }
