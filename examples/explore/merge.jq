# Adds up what `lwkt explore --random N --seed S --json` found of one script with several seeds: `jq -s -f merge.jq`.
{
  outcomes: ([.[].outcomes[]] | group_by(del(.order, .turns, .count)) | map(min_by(.turns) + {count: map(.count) | add})),
  lost: (map(.lost | values) | first // null),
  orders: (map(.orders) | add),
  turns: (map(.turns) | add),
  complete: false,
  whole: all(.whole),
  bound: (map(.bound | values) | first // null),
  claims: (map(.claims) | transpose | map((map(select(.verdict != "not decided")) + .)[0]))
}
