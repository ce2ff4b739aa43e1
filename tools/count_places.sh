#!/bin/bash
# Counts the candidates of the eight points of docs/DESIGN-PASS.md, from the top of a checkout: `tools/count_places.sh`, or with a
# number and `-v` (`tools/count_places.sh 3 -v`) the lines themselves. A candidate is a line to be read; the page says how many were places.
cd "$(dirname "$0")/.." || exit 1
sources=(crates/*/src/*.rt)
answers() { find crates/*/proofs -name Answers.antt; }
# names with a type and a body of their own, at any depth, in proofs that are no answers
lemmas() {
    awk 'FNR==1{split("",s);split("",d)} {match($0,/^ */); k=RLENGTH; l=substr($0,k+1); m=l; sub(/^(abbrev |unfoldable )*(pub )?/,"",m); split(m,a," ")} m ~ /^[^ (){},=;]+ : / {s[a[1]]=FNR; d[a[1]]=k; next} (a[1] in s)&&d[a[1]]==k&&(l ~ / = / || l ~ / =$/){print FILENAME":"s[a[1]]":"a[1]; delete s[a[1]]}' crates/*/proofs/*.antt
}

point() {
    case $1 in
    1) # own enums, flags beside a value, numbers for kinds or refusals
        grep -nE '^ *(pub(\([a-z]+\))? )?enum |^ *(pub )?[a-z_]+: (Option<.*|bool),|^ *pub cause: u8|\bas u8\b|= [0-9]+,( //.*)?$' "${sources[@]}" ;;
    2) # functions, constants and literals that stand more than once
        grep -nE '65_535|65_536|65_537|256 \* |depth: 0|from_le_bytes|fn (number|lift|passed_on|telling|cut_short|own_fault|fault|step_reply|pass_reply|make_step|make_pass|make_call|step_line|pass_line|outcome_line|receive_play|receive_chunked_play|read_loaded|read_chunks_loaded|loaded|push_two|push_four|push_number|number_of|read_count|part|read_section|run|load|mixed[a-z_]*|with[a-z_]*|[a-z]+_named|refused_line|list_capture|capture_text)\b|impl.* for u8|refusal as u8|Ending::Broken\(|Pulled::(Ended|Broken\(fault\)) =>|(room == 0|out\.is_empty\(\))' "${sources[@]}" ;;
    3) # loops, and counts and walks by hand
        grep -nE '^ *(for|while|loop)\b|[a-z_.]+ (\+=|-=) |= (\*?[a-z]+)\.saturating_add\(|self\.[a-z]+ = &self\.[a-z]+\[' "${sources[@]}" ;;
    4) # conversion and printing
        grep -nE 'fn (kind_of|letter_of|number|number_of|numbers_of|digit_of|telling|cut_short|passed_on|own_fault|counted_as|in_force|step_reply|pass_reply|[a-z]+_named|case_in|field|low_byte|read_ending|mixed[a-z_]*|load|[a-z]+_line|line|list_answers|call_lines|chunked|push_[a-z]+|recorded|pieces|tail_of|with_cuts)\b|format!|print!|write!|writeln!|impl.* (PartialEq|Eq|Ord|PartialOrd|Clone|Copy|From<.*>|Into<.*>|TryFrom<.*>|FromStr|Display|Debug) for|256 \* |as char' "${sources[@]}" ;;
    5) # clauses that stand in three or more contracts (old and new of receiver and self alike), then triples of parameters in two or more heads
        sed -nE 's/^ *(requires|ensures)( [a-z_0-9]+)? \{ (.*) \};?.*/\1 \3/p' "${sources[@]}" | sed -E 's/\b(receiver|self|carrier|beneath)\.(old|new)/R.\2/g' | sort | uniq -c | awk '$1 >= 3'
        awk '/^ *(pub(\([a-z]+\))? |extern "C" )*fn /{b="";on=1} on{b=b " " $0; if($0 ~ /\)( ->|$| *\{| where)/){on=0; sub(/^[^(]*fn [^(]*\(/,"",b); sub(/\) *(->.*|\{.*|)$/,"",b); n=0; while(match(b,/[a-z_]+ *:[^:]/)){p=substr(b,RSTART,RLENGTH); sub(/ *:.*/,"",p); q[++n]=p; b=substr(b,RSTART+RLENGTH)} for(i=1;i<=n;i++)for(j=i+1;j<=n;j++)for(k=j+1;k<=n;k++)c[q[i]","q[j]","q[k]]++}} END{for(t in c)if(c[t]>=2)print c[t],"functions take",t}' "${sources[@]}" | sort -rn ;;
    6) # arrays, lengths and places beside a buffer
        grep -nE '\[[a-z0-9]+; *[A-Z0-9_]+\]|\[u(8|32); *[A-Z0-9_]+\]|usize,( |$)|Short\(|lengths|binary_search|^ *(pub )?(left|at|drawn|length|entry|place): u|numbers\b.*\[' "${sources[@]}" ;;
    7) # matches that choose what to do, function pointers, dyn
        grep -nE '^ *(return |let [a-z]+ = |[A-Za-z:]+ => |None => )?match |fn\([^)]*\) *->|\[fn|&dyn|Box<dyn|\bdyn ' "${sources[@]}" ;;
    8) # answered goals
        grep -hoE '^pub [^ ]+ : goal\.' $(answers) ;;
    esac
}

case ${1:-} in
[1-8]) if [ "${2:-}" = -v ]; then point "$1"; else point "$1" | wc -l; fi ;;
*)
    for n in 1 2 3 4 5 6 7 8; do echo "$n $(point "$n" | wc -l)"; done
    echo "lines: $(cat "${sources[@]}" | wc -l) in src, $(cat crates/*/specs/*.antt | wc -l) in specs, $(cat $(find crates/*/proofs -name '*.antt') | wc -l) in proofs"
    echo "lemmas: $(lemmas | wc -l)"
    ;;
esac
