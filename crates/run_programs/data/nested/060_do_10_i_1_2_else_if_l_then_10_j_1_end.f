      DO 10 I=1,2
      ELSE IF(L)THEN
10    J=1
      END
