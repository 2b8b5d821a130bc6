# Sourced by the scripts that put Git's objects into edend.

# The lines of a script that put the trees and blobs that standard input tells: lines MODE:WORD:ID:PATH of a tree's files and directories, a
# directory before what it holds, behind a line root:tree:ID of the tree itself; any number of trees. A label is the first letter of the
# object's word and the first digits of its id. The blob of mark N, by Git's file $work/marks, holds `text N` and a line feed.
object_lines() {
    LC_ALL=C awk -F : -v marks="$work/marks" '
        BEGIN { while ((getline line < marks) > 0) { split(line, part, "[: ]"); number[part[3]] = part[2] } }
        {
            label = substr($2, 1, 1) substr($3, 1, 31)
            if ($1 == "root") key = root = NR
            else {
                key = root "/" $4
                match(key, /\/[^\/]*$/)
                above = substr(key, 1, RSTART - 1)
                sub(/^0/, "", $1)
                entries[above] = entries[above] " " $1 " " substr(key, RSTART + 1) " " label
            }
            if ($2 == "tree") { trees[++count] = label; keys[count] = key }
            else if (!seen[label]++) print "blob " label " text\\s" number[$3] "\\n"
        }
        END { for (t = count; t > 0; t--) if (!seen[trees[t]]++) print "tree " trees[t] entries[keys[t]] }'
}
