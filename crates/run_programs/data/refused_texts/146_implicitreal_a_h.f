      IMPLICITREAL(A-H)
      END
