-- Prints for each row what a window makes of the columns k and x, by one array of JSON a line.
-- sqlite3 :memory: ".read FILE" < DOCUMENT ; the columns are joined by row number, which is a primary key.
create table document as select cast(readfile('/dev/stdin') as text) as body;
create table x (row integer primary key, value);
insert into x select key, value from document, json_each(body, '$.columns[1].values');
create table rows as select k.key as row, k.value as k, x.value as x from document cross join json_each(body, '$.columns[0].values') k cross join x on x.row = k.key;
select json_array(made) from (select row, sum(x) over (partition by k) as made from rows) order by row;
