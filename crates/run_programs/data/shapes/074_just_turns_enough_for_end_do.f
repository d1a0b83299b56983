C TURNS 81
      INTEGER A(40)
      DO I=1,40
      A(I)=I
      END DO
      END
