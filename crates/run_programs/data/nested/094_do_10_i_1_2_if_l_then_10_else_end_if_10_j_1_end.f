      DO 10 I=1,2
      IF(L)THEN
10    ELSE
      END IF
10    J=1
      END
