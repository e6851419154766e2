-- Prints the rows that the step makes of the columns a, b and c, by one array of JSON a line.
-- sqlite3 :memory: ".read steps_filter.sql" < DOCUMENT ; the columns are joined by row number, which is a primary key.
create table document as select cast(readfile('/dev/stdin') as text) as body;
create table b (row integer primary key, value);
create table c (row integer primary key, value);
insert into b select key, value from document, json_each(body, '$.columns[1].values');
insert into c select key, value from document, json_each(body, '$.columns[2].values');
select json_array(a.value, b.value, c.value) from document cross join json_each(body, '$.columns[0].values') a cross join b on b.row = a.key cross join c on c.row = a.key where a.value < b.value order by a.key;
