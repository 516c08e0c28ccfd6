# What is printed as text and is no request: a backslash, a dash, and a dot or a quote at the start are escaped.
function plain(s) { gsub(/\\/, "\\e", s); gsub(/-/, "\\-", s); if (s ~ /^[.']/) s = "\\&" s; return s }
function say(s) { if (s != "") print plain(s) }
