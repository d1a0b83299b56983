      INTEGER A(2)
      DO A(1)=1,2
      END DO
      END
