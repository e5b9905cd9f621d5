# A large scenario: ALERTS alerts (65,536, unless -v alerts=.. says how many) in groups of 16, and one flush.
BEGIN {
    if (!alerts) alerts = 65536
    printf "{\"config\":{\"receivers\":[{\"name\":\"team\",\"integrations\":[{\"kind\":\"hook\"}]}],"
    printf "\"route\":{\"receiver\":\"team\",\"group_by\":[\"alertname\"]}},\"phases\":[{\"at\":0,\"lanes\":[["
    for (i = 0; i < alerts; i++)
        printf "%s{\"insert\":{\"labels\":[[\"alertname\",\"G%d\"],[\"inst\",\"%d\"]],\"starts\":0}}", (i ? "," : ""), i / 16, i
    printf "]]},{\"at\":30000,\"flush\":true}]}"
}
