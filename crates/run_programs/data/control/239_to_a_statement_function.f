   10 J(N)=N
      GO TO 10
      END
