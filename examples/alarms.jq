# The lines of the front's watch.log on which to raise an alarm, each with its reason:
#
#     jq -r -f alarms.jq watch.log
def reason:
    if .status == "502" then "the desk is away"
    elif .status == "503" then "the desk has no memory, or its database failed"
    elif .status == "504" then "the desk does not answer"
    elif .status >= "500" then "the front failed, or the desk stayed away"
    elif .status == "401" and .caller != "" then "a wrong password"
    elif .status == "429" then "too many requests"
    elif .status == "403" and .desk == "" then "a page of another site"
    # With wait.conf it has a time for each try, as in "0.000 : 9.100".
    elif ([.desk | scan("[0-9.]+") | tonumber] | max // 0) > 5 then "the desk was held"
    else empty end;
# The caller of a 401 may have line ends, which stay as in the log.
"\(.time) \(reason): \(.status) \(.caller | tojson[1:-1]) \(.method) \(.path)"
