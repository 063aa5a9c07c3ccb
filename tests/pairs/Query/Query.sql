-- Tables of a library.
CREATE TABLE book (
    id INTEGER NOT NULL PRIMARY KEY,
    title VARCHAR(200) NOT NULL,
    "year of print" INTEGER,
    price DECIMAL(8, 2) NULL
);
create table town.loan (book INTEGER, "to ""whom""" TEXT, day DATE, PRIMARY KEY (book, day));

/* Some books.
   /* Not all of them: /* the rest */ are lent */ */
INSERT INTO book (id, title, price) VALUES
    (1, 'Rivers', 12.50),
    (2, 'Ada''s lakes', 1e2),
    (3, '', .5E+1),
    (2 + 2, 'a' || 'b' || 'c', NULL);
insert into old select * from book where not exists (select 1);
INSERT INTO notes VALUES (1, $$A text of
several lines, with 'quotes' and a $ sign.$$), (2, $$$$);

Select distinct b.title t, b.*, count(*) As "number", max(l.day)
From book b
  Left Join town.loan AS l On l.book = b.id And l.day > :since
  Join (select id, avg(price) from book group by id) averages (id, price) On averages.id = b.id
  Cross Join years
Where b.price Between 10 And 20 Or b.title Like 'R%' And Not b.id In (1, 2, 3)
Group By b.title, b.id Having Count(Distinct l.day) >= 3
Order By 2 Desc, t Asc, lower(t)
Limit 10, 20;

SELECT /*+ index(book) */ -price * -2 + 3 - 4 / 5 % 6 FROM book;
SELECT 1 + 2 * 3 < 4 - 5 = TRUE, a <> b AND c != d OR NOT e <= f AND g;
SELECT NOT NOT a = b, NOT a IS NOT NULL, - - 1, (1), ((2)), (3, 4);
SELECT a || b || c LIKE d || '%' FROM e;
SELECT a BETWEEN b + 1 AND c * 2 AND d, e NOT BETWEEN f AND g OR h;
SELECT x NOT IN (SELECT id FROM book), y IN ((SELECT 1) UNION (SELECT 2));
SELECT b'0110', B'', 1., .1, 1.5e-10, 0;

select case when price > 100 then 'dear' when price is null then '?' else 'cheap' end as kind,
       case id when 1 then 'one' when 2 then 'two' end,
       (select max(id) from book) + 1
from book, (town.loan join book on book.id = loan.book) where ?;

with dear as (select * from book where price > 50),
     lent (book, days) as (
         select l.book, today() - l.day
         from town.loan l
     )
select d.title, l.days
from dear d
left join lent l on l.book = d.id
left join book b on b.id = d.id and (b.price is true or b.price is not false)
where l.days > 30 or l.days is null
order by l.days desc
limit :count;

select id from book
union all
select id from old
except
select book from town.loan
intersect
(select 3 union select 4 order by 1 limit 5)
order by 1;

update book set price = price * 1.1, title = upper(title) || '!'
where price < (select avg(price) from book) and title not like '%!';

UPDATE town.loan SET day = NULL;
DELETE FROM town.loan WHERE day < :today - 365;
delete from old;

;;
select straße, größe_1, Ελλάδα from städte where name = 'Zürich' -- Umlauts
;
select "select", "a ""b"" c"."d e" from "from" as "as";
select f(), f(a), f(a, g(b, h(c))), f(distinct a, b) from t1 cross join t2 join t3 on true;

SELECT a.b.c.d, a . * FROM a
WHERE (((a.b)) = ((1) + 2)) AND ((SELECT 1) IN (1, (2), ((3))))
   OR EXISTS ((SELECT x FROM y WHERE z))
   OR EXISTS (1, 2);
select
    /* before */ first, -- after the first
    second -- and the second
    /**/
from t /* at /**/ the end */
where a = 1 -- without semicolon
