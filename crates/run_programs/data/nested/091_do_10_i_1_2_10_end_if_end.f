      DO 10 I=1,2
10    END IF
      END
