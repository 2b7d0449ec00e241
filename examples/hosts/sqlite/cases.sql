-- What ebpf(..) returns, and how it fails: cases.txt has what sqlite3 writes, without the places of errors. The functions are those of this
-- folder, of tests/objects, and of examples, of which `check` makes object files.
.load ./ebpf
.load ./native
CREATE TABLE requests(request);
INSERT INTO requests VALUES (x'0000000000000000'), (x'0201090000010000'), (x'0202090000010000'), (x'0102090010270000'), (x'0102090011270000'),
    (x'0102070010270000'), (x'0302090000000000'), (x'0203090000000000'), (NULL);
SELECT hex(request), ebpf('policy.o', 'allow', request), ebpf('policy.o', 'allow', request, 8), native_allow(request) FROM requests;
-- a text, blobs of several lengths, a file or a function that differs from row to row, and a loop
SELECT ebpf('method.o', 'method', 'DELETE /'), ebpf('method.o', 'method', 'FETCH /a');
SELECT length(column1), ebpf('leap.o', 'leap', column1), ebpf('policy.o', 'allow', column1) FROM (VALUES (zeroblob(8)), (zeroblob(9)), (zeroblob(8)));
SELECT column2, ebpf(column1, column2, x'01000000050000000300000004000000')
    FROM (VALUES ('two.o', 'checksum'), ('two.o', 'largest'), ('policy.o', 'allow'), ('two.o', 'largest'));
SELECT column1, ebpf('two.o', column1, x'01000000050000000300000004000000') FROM (VALUES ('checksum'), ('largest'), ('checksum'));
SELECT ebpf('adler.o', 'adler', x'0957696b6970656469610000000000000000000000000000000000000000000000');
-- an empty blob; a record that one row leaves on the shelf is not there for the next
SELECT ebpf('consumer.o', 'consumer', x''), ebpf('producer.o', 'producer', zeroblob(8)), ebpf('consumer.o', 'consumer', x'');
-- refusals, the last with its line of C
SELECT ebpf('policy.o', 'allo', x'00');
SELECT ebpf('policy.o', 'allow', zeroblob(4085));
SELECT ebpf('two.o', 'largest', zeroblob(15));
SELECT ebpf('cases.sql', 'allow', x'00');
-- other errors
SELECT ebpf('policy.o', 'allow', x'00', 8);
SELECT ebpf('policy.o', 'allow', zeroblob(4097));
SELECT ebpf('nothing.o', 'allow', x'00');
SELECT ebpf('.', 'allow', x'00');
SELECT ebpf(NULL, 'allow', x'00');
SELECT ebpf('policy.o', NULL, x'00');
CREATE VIEW allowed AS SELECT ebpf('policy.o', 'allow', request) FROM requests;
SELECT * FROM allowed;
