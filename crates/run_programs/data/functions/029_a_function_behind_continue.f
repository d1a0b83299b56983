      CONTINUE
      M(J)=J
      END
