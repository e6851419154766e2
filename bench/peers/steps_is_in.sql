-- Prints the rows that the step makes of the columns a, b and c, by one array of JSON a line.
-- sqlite3 :memory: ".read steps_is_in.sql" < DOCUMENT ; the columns are joined by row number, which is a primary key.
create table document as select cast(readfile('/dev/stdin') as text) as body;
create table b (row integer primary key, value);
create table c (row integer primary key, value);
insert into b select key, value from document, json_each(body, '$.columns[1].values');
insert into c select key, value from document, json_each(body, '$.columns[2].values');
create table among as with recursive it (value) as (select 0 union all select value + 3 from it where value < 2997) select value from it;
create index among_value on among (value);
select case when a.value in (select value from among) then '[true]' else '[false]' end from document cross join json_each(body, '$.columns[0].values') a cross join b on b.row = a.key cross join c on c.row = a.key order by a.key;
