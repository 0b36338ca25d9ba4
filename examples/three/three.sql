create temporary table frames (w bigint, query text, level int, branch int, kind text, operator int,
  c1 numeric, c2 numeric, c3 numeric, c4 numeric, c5 numeric, c6 numeric, c7 numeric, c8 numeric);
\copy frames from 'three.csv' csv header

create temporary view newconn as                 -- 2 reduce, 3 filter
select w, level, c1 as d, least(sum(c2), 4294967295) as n
from frames where query = 'newconn' and kind = 'at' and operator in (2, 3)
group by w, level, d having sum(c2) > 400;

create temporary view spread as                  -- 2 distinct, 3 map, 4 reduce, 5 filter
with pairs as (select distinct w, level, c1 as d, c2 as s from frames where query = 'spread' and kind = 'at' and operator = 2),
  counts as (select w, level, d, 1 as n from pairs
    union all select w, level, c1, c2 from frames where query = 'spread' and operator in (4, 5))
select w, level, d, least(sum(n), 4294967295) as n
from counts group by w, level, d having sum(n) > 300;

create temporary view slow as                    -- branch 0: 2 distinct, 3 map, 4 reduce; branch 1: 2 reduce; then the join
with triples as (select distinct w, level, c1 as d, c2 as s, c3 as p from frames where query = 'slow' and branch = 0 and kind = 'at' and operator = 2),
  counts as (select w, level, d, 1 as n from triples
    union all select w, level, c1, c2 from frames where query = 'slow' and branch = 0 and operator in (4, 5)),
  conns as (select w, level, d, least(sum(n), 4294967295) as conns from counts group by w, level, d),
  totals as (select w, level, c1 as d, least(sum(c2), 281474976710655) as total from frames
    where query = 'slow' and branch = 1 and kind = 'at' and operator in (2, 3) group by w, level, d),
  ratios as (select w, level, d, case total when 0 then 0 else div(conns * 1000000, total) end as ratio from conns join totals using (w, level, d))
select * from ratios where ratio > case level when 8 then 1000 when 16 then 1000 else 20000 end;

select w, 'newconn', level, '0.0.0.0'::inet + d::bigint, n from newconn
union all select w, 'spread', level, '0.0.0.0'::inet + d::bigint, n from spread
union all select w, 'slow', level, '0.0.0.0'::inet + d::bigint, ratio from slow;
