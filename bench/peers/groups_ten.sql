-- Prints for each group what a group step makes of the columns k, a and b, by one array of JSON a line.
-- sqlite3 :memory: ".read FILE" < DOCUMENT ; the columns are joined by row number, which is a primary key.
create table document as select cast(readfile('/dev/stdin') as text) as body;
create table a (row integer primary key, value);
create table b (row integer primary key, value);
insert into a select key, value from document, json_each(body, '$.columns[1].values');
insert into b select key, value from document, json_each(body, '$.columns[2].values');
create table rows as select k.key as row, k.value as k, a.value as a, b.value as b from document cross join json_each(body, '$.columns[0].values') k cross join a on a.row = k.key cross join b on b.row = k.key;
select json_array(k, total, least, greatest, (select a from rows where rowid = first), (select a from rows where rowid = last), others, present, length, products, less) from (select k, sum(a) as total, min(a) as least, max(a) as greatest, min(rowid) as first, max(rowid) as last, count(distinct b) as others, count(a) as present, count(*) as length, sum(a * b) as products, sum(case when a < b then a else 0 end) as less from rows group by k) order by first;
