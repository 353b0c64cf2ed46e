PRAGMA integrity_check;
SELECT quote(name), quote(val) FROM cr_meta ORDER BY name;
SELECT quote(name), quote(ordinal), quote(crr), quote(def) FROM cr_schema ORDER BY ordinal;
SELECT quote(tbl), quote(pk), quote(cid), quote(cl), quote(ver), quote(val), quote(site), quote(dbv), quote(seq)
FROM cr_cell ORDER BY tbl, pk, cid;
SELECT quote(site), quote(seen) FROM cr_peer ORDER BY site;
