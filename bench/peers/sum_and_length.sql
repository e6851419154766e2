-- Prints [key,sum,rows] for each value of k, in order of first appearance.
-- sqlite3 :memory: '.read sum_and_length.sql' < DOCUMENT ; the join by row number is by a primary key.
create table document as select cast(readfile('/dev/stdin') as text) as body;
create table keys (row integer primary key, k);
insert into keys select key, value from document, json_each(body, '$.columns[0].values');
select json_array(k, sum(value), count(*))
from document cross join json_each(body, '$.columns[1].values') cross join keys on row = key
group by k order by min(row);
