      DO 10 I=1,2
      IF(L)THEN
10    END
