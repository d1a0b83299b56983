      INTEGER M
