      DO 10 I=1,2
10    IF(L)THEN
      END IF
10    J=1
      END
