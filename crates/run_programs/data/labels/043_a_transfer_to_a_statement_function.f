   10 ISQ(N)=N*N
      I=ISQ(2)
      GO TO 10
      END
