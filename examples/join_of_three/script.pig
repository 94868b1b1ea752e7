-- An inner JOIN takes two inputs or more.
people = LOAD 'people' AS (id:int, name:chararray);
towns = LOAD 'towns' AS (id:int, town:chararray);
pets = LOAD 'pets' AS (owner:int, pet:chararray);
j = JOIN people BY id, towns BY id, pets BY owner;
n = FOREACH j GENERATE name, town, pet;
STORE n INTO 'n';
