-- The table that the module sql reads, as FreeRADIUS has it. An attribute is a hash of the password: Crypt-Password (crypt(3))
-- for PAP and TTLS, NT-Password for MS-CHAP and PEAP. EAP-MD5 and CHAP want Cleartext-Password.
CREATE TABLE IF NOT EXISTS radcheck (
    id INTEGER PRIMARY KEY AUTOINCREMENT,
    username varchar(64) NOT NULL DEFAULT '',
    attribute varchar(64) NOT NULL DEFAULT '',
    op char(2) NOT NULL DEFAULT ':=',
    value varchar(253) NOT NULL DEFAULT ''
);
CREATE INDEX IF NOT EXISTS check_username ON radcheck (username);
