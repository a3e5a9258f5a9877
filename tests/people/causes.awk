# Looks for a cause in each line of a log, with the functions of the command: there is one exactly if the plain output has 17. Standard input has the
# plain output without its header.
BEGIN { FS = "\t"; load(); open_log() }
{
    if (!next_line()) { print "the log ended early"; exit }
    if (($1 == "refused" && $2 == 17) != (malformed(text) != "")) print "line " NR ": '" safe(text) "' has the cause '" malformed(text) "' and the answer " $0
}
